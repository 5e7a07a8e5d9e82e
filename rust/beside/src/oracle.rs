//! The published Rust, asked in the language of the recorded runs.

use std::panic::{catch_unwind, AssertUnwindSafe};

use xiengmado::engine::Place;

use crate::connect::Connect;
use crate::connection::{self, Connection, PollReply, ReplyFdKind};
use crate::id_allocator::IdAllocator;
use crate::packet_reader::PacketReader;
use crate::protocol::xc_misc::GetXIDRangeReply;
use crate::replay::{Answer, Class, Kind, Outstanding, Poll, Rooms, Side, State};
use crate::utils::{number, take_closed, RawFdContainer};
use crate::DiscardMode;

pub struct Oracle {
    connection: Connection,
    reader: PacketReader,
    handshake: Connect,
    ids: IdAllocator,
    /// Whether `None` and `Err` are written as the refusals that stand for them.
    translated: bool,
}

fn polled(poll: PollReply) -> Poll {
    match poll {
        PollReply::TryAgain => Poll::Again,
        PollReply::NoReply => Poll::NoReply,
        PollReply::Reply(packet) => Poll::Reply(packet),
    }
}

impl Oracle {
    pub fn fresh(translated: bool) -> Self {
        let _ = take_closed();
        let (handshake, _) = Connect::with_authorization(Vec::new(), Vec::new());
        Oracle {
            connection: Connection::new(),
            reader: PacketReader::new(),
            handshake,
            ids: IdAllocator::new(0, 1).expect("a mask"),
            translated,
        }
    }

    /// The word of the Rust, or the refusal that stands for it.
    fn says(&self, word: &str, refusal: u32) -> String {
        match self.translated {
            true => format!("refused {refusal}"),
            false => word.into(),
        }
    }
}

impl Side for Oracle {
    fn new_connection(&mut self, _: Rooms) -> Answer<()> {
        self.connection = Connection::new();
        let _ = take_closed();
        Ok(())
    }

    fn send(&mut self, kind: Kind) -> Answer<u64> {
        let kind = match kind {
            Kind::None => ReplyFdKind::NoReply,
            Kind::Reply => ReplyFdKind::ReplyWithoutFDs,
            Kind::Fds => ReplyFdKind::ReplyWithFDs,
        };
        let number = self.connection.send_request(kind);
        number.ok_or_else(|| self.says("none", 6))
    }

    fn fds(&mut self, list: &[u32]) -> Answer<()> {
        let fds = list.iter().map(|&fd| RawFdContainer(fd)).collect();
        self.connection.enqueue_fds(fds);
        Ok(())
    }

    fn intake(&mut self, packet: &[u8]) -> Answer<Class> {
        let connection = &mut self.connection;
        catch_unwind(AssertUnwindSafe(|| {
            connection.enqueue_packet(packet.to_vec())
        }))
        .map(|()| None)
        .map_err(|_| "panic".into())
    }

    fn discard(&mut self, number: u64, both: bool) -> Answer<()> {
        let mode = match both {
            true => DiscardMode::DiscardReplyAndError,
            false => DiscardMode::DiscardReply,
        };
        self.connection.discard_reply(number, mode);
        Ok(())
    }

    fn poll_reply_or_error(&mut self, sequence: u64) -> Answer<Option<(Vec<u8>, Vec<u32>)>> {
        let found = self.connection.poll_for_reply_or_error(sequence);
        Ok(found.map(|(packet, fds)| (packet, fds.into_iter().map(number).collect())))
    }

    fn poll_check(&mut self, sequence: u64) -> Answer<Poll> {
        Ok(polled(
            self.connection.poll_check_for_reply_or_error(sequence),
        ))
    }

    fn poll_reply(&mut self, sequence: u64) -> Answer<Poll> {
        Ok(polled(self.connection.poll_for_reply(sequence)))
    }

    fn prepare(&mut self, sequence: u64) -> Answer<bool> {
        Ok(self.connection.prepare_check_for_reply_or_error(sequence))
    }

    fn poll_event(&mut self) -> Answer<Option<(u64, Vec<u8>, Class)>> {
        let event = self.connection.poll_for_event_with_sequence();
        Ok(event.map(|(packet, number)| (number, packet, None)))
    }

    fn state(&self) -> State {
        let (written, expected, read) = connection::numbers(&self.connection);
        let letter = |mode, has_fds| match (mode, has_fds) {
            (None, false) => 'n',
            (None, true) => 'N',
            (Some(xiengmado::DiscardMode::DiscardReply), false) => 'r',
            (Some(xiengmado::DiscardMode::DiscardReply), true) => 'R',
            (Some(xiengmado::DiscardMode::DiscardReplyAndError), false) => 'b',
            (Some(xiengmado::DiscardMode::DiscardReplyAndError), true) => 'B',
        };
        let requests = connection::outstanding(&self.connection).map(|request| Outstanding {
            number: request.number,
            letter: letter(request.discard_mode, request.has_fds),
        });
        let held = |place| connection::held(&self.connection, place).into_iter();
        State {
            written,
            expected,
            read,
            outstanding: requests.collect(),
            events: held(Place::Events)
                .map(|(n, packet, _)| (n, packet.len()))
                .collect(),
            replies: held(Place::Replies)
                .map(|(n, packet, fds)| (n, packet.len(), fds))
                .collect(),
            waiting: connection::waiting(&self.connection).collect(),
        }
    }

    fn closed(&mut self) -> Vec<u32> {
        take_closed()
    }

    fn new_reader(&mut self) {
        self.reader = PacketReader::new();
    }

    fn room(&mut self) -> &mut [u8] {
        self.reader.buffer()
    }

    fn advance(&mut self, amount: usize) -> Answer<Option<(Vec<u8>, Class)>> {
        Ok(self.reader.advance(amount).map(|packet| (packet, None)))
    }

    fn new_handshake(&mut self) {
        self.handshake = Connect::with_authorization(Vec::new(), Vec::new()).0;
    }

    fn handshake_room(&mut self) -> &mut [u8] {
        self.handshake.buffer()
    }

    fn handshake_advance(&mut self, amount: usize) -> Answer<bool> {
        Ok(self.handshake.advance(amount))
    }

    fn ids(&mut self, base: u32, mask: u32) -> Answer<()> {
        match IdAllocator::new(base, mask) {
            Ok(ids) => self.ids = ids,
            Err(_) => return Err(self.says("err", 10)),
        }
        Ok(())
    }

    fn generate(&mut self) -> Answer<u32> {
        let id = self.ids.generate_id();
        id.ok_or_else(|| self.says("none", 11))
    }

    fn range(&mut self, start_id: u32, count: u32) -> Answer<()> {
        let range = GetXIDRangeReply { start_id, count };
        let answer = self.ids.update_xid_range(&range);
        answer.map_err(|_| self.says("err", 11))
    }
}
