//! A client that is fed a recorded stream. What it does follows from the stream and from how much of
//! it was fed, so two clients in equal states do the same and must answer the same.

use std::fmt::Debug;

use xiengmado::connection::ReplyFdKind;
use xiengmado::engine::Engine;
use xiengmado::id_allocator::IdAllocator;
use xiengmado::packet_reader::PacketReader;
use xiengmado::savepoint::SaveError;
use xiengmado::{ByteOrder, DiscardMode, PacketClass, Refusal, SequenceNumber};

/// The event that carries no number.
const KEYMAP_NOTIFY: u8 = 11;

/// A connection, its reader and its ids.
pub struct Player {
    pub engine: Engine,
    pub reader: PacketReader,
    pub ids: IdAllocator,
}

/// How far a player is in its stream.
#[derive(Debug, Clone, Copy, Default, PartialEq)]
pub struct Place {
    pub bytes: usize,
    pub packets: u64,
}

/// Every answer so far, as text. A reader that wants more bytes says nothing, so that it does not
/// matter in which pieces they come.
pub type Log = Vec<String>;

fn say(log: &mut Log, call: &str, answer: impl Debug) {
    log.push(format!("{call} {answer:?}"));
}

impl Player {
    /// A fresh client with these rooms, which reads little-endian streams.
    pub fn new(requests: usize, store: usize, buffer: usize) -> Result<Self, Refusal> {
        Ok(Player {
            engine: Engine::new(ByteOrder::Little, requests, store)?,
            reader: PacketReader::with_buffer(ByteOrder::Little, buffer)?,
            ids: IdAllocator::new(0x20_0000, 0x1f_ffff).expect("a mask"),
        })
    }

    pub fn save(&self) -> Result<Vec<u8>, SaveError> {
        self.engine.save(&self.reader, &self.ids)
    }

    pub fn restore(bytes: &[u8]) -> Result<Self, Refusal> {
        let (engine, reader, ids) = Engine::restore(bytes)?;
        Ok(Player {
            engine,
            reader,
            ids,
        })
    }

    /// The same into the rooms that are there.
    pub fn restore_into(&mut self, bytes: &[u8]) -> Result<(), Refusal> {
        self.engine
            .restore_into(bytes, &mut self.reader, &mut self.ids)
    }

    /// Takes the bytes up to an end, no more than the packet wants that they belong to. False where
    /// there are none, and at a packet that is too long for the reader: there the stream ends.
    pub fn step(&mut self, stream: &[u8], at: &mut Place, end: usize, log: &mut Log) -> bool {
        let part = self.reader.buffer();
        let n = part
            .len()
            .min(end.min(stream.len()).saturating_sub(at.bytes));
        part[..n].copy_from_slice(&stream[at.bytes..at.bytes + n]);
        let answer = self.reader.try_advance_with_class(n);
        at.bytes += n;
        match &answer {
            Ok(None) => {}
            Ok(Some((packet, class))) => {
                at.packets += 1;
                say(log, "whole", (packet, class));
                self.came(packet, *class, at.packets, log);
            }
            Err(refusal) => {
                at.bytes = stream.len();
                say(log, "advance", refusal);
            }
        }
        n > 0 && answer.is_ok()
    }

    /// The rest of the stream, packet by packet.
    pub fn rest(&mut self, stream: &[u8], at: &mut Place, log: &mut Log) {
        while self.step(stream, at, stream.len(), log) {}
    }

    /// A packet is whole: the requests that it answers were sent before it, and some calls follow.
    fn came(&mut self, packet: &[u8], class: PacketClass, turn: u64, log: &mut Log) {
        let number = self.number(packet, class);
        self.send(number, log);
        let e = &mut self.engine;
        say(log, "packet", e.enqueue_packet_with_class(packet));
        match turn % 4 {
            0 => say(log, "event", e.poll_for_event_with_class()),
            1 => say(log, "reply", e.poll_for_reply_with_class(number)),
            2 => say(
                log,
                "check",
                e.poll_check_for_reply_or_error_with_class(number),
            ),
            _ => say(
                log,
                "reply or error",
                e.poll_for_reply_or_error_with_class(number - number.min(1)),
            ),
        }
        say(
            log,
            "sync",
            e.prepare_check_for_reply_or_error(number + turn % 3),
        );
        let mode = match turn % 2 {
            0 => DiscardMode::DiscardReply,
            _ => DiscardMode::DiscardReplyAndError,
        };
        if turn % 5 == 4 {
            say(log, "discard", e.discard_reply(number + 1, mode));
        }
        say(log, "id", self.ids.generate_id());
    }

    /// The number of a packet: the least from the last read on that has its 16 bits.
    fn number(&self, packet: &[u8], class: PacketClass) -> SequenceNumber {
        let read = self.engine.last_sequence_read();
        let wire = u16::from_le_bytes([packet[2], packet[3]]);
        match class.event_code(packet) {
            Some(KEYMAP_NOTIFY) => read,
            _ => read + u64::from(wire.wrapping_sub(read as u16)),
        }
    }

    /// Requests up to two past a number; every third has a reply.
    fn send(&mut self, number: SequenceNumber, log: &mut Log) {
        let written = self.engine.last_sequence_written();
        let kinds: Vec<ReplyFdKind> = (written + 1..=number + 2)
            .map(|n| match n % 3 {
                0 => ReplyFdKind::ReplyWithoutFDs,
                _ => ReplyFdKind::NoReply,
            })
            .collect();
        say(log, "send", self.engine.send_requests(&kinds));
    }
}
