//! The engine on live traffic: it is told what the client sends and given what the server sends, and the
//! number under which it files a packet is compared with the true one.
//!
//! Requests are told to it with the kind that Core gives. Of an extension's request the kind is not known: it is
//! told as one with a reply, since such a one is never refused for want of a sync. That changes no number; it
//! makes the engine ask for a sync later than it would.
//!
//! Descriptors of the server are told as 1, 2, 3 in the order in which they come, before the bytes that they came
//! with; the real ones are only passed on. The few requests whose reply has some are known (`extensions.rs`).
//!
//! Each packet is taken back at once, as a client would: an event as the oldest, a reply or an error by its
//! true number. So the engine's store never fills. Its class, which the reader tells, must be told again when it
//! is taken in and when it comes back.

use std::fmt;
use std::ops::Range;

use xiengmado::connect::Connect;
use xiengmado::connection::ReplyFdKind;
use xiengmado::engine::{Engine, Place};
use xiengmado::packet_reader::{packet_length_with_class, PacketReader, PacketWithClass};
use xiengmado::{ByteOrder, PacketClass, Refusal};

use crate::extensions::Extensions;
use crate::reckoning::{Reckoning, Truth};
use crate::replay::Kind;
use crate::requests::{answer, Answer, Requests, Step, QUERY_EXTENSION};
use crate::script::{Part, Script};
use crate::wire::{get16, get32};

const OUTSTANDING: usize = 65_536;
const STORE: usize = 131_072;
const PACKET: usize = 65_536;
const SETUP: usize = 262_148;

/// Every packet has so many bytes at least.
const LEAST: usize = 32;

/// At most so many differences are told one by one.
const TOLD: u64 = 10;

/// What is said at the end.
#[derive(Debug, Default, Clone, PartialEq, Eq)]
pub struct Counts {
    pub requests: u64,
    pub extensions: u64,
    pub replies: u64,
    pub errors: u64,
    pub events: u64,
    pub last: u64,
    /// Packets that are longer than the engine takes; it was given their first 32 bytes.
    pub long: u64,
    /// Descriptors of the server.
    pub fds: u32,
    /// Packets of which nobody can tell the true number.
    pub unclear: u64,
    /// Requests that a client may send only after a sync.
    pub late: u64,
    /// Bytes of the server at the end that make no whole packet.
    pub left: usize,
    pub differences: u64,
}

impl fmt::Display for Counts {
    fn fmt(&self, f: &mut fmt::Formatter<'_>) -> fmt::Result {
        let packets = self.replies + self.errors + self.events;
        write!(f, "{} requests ", self.requests)?;
        write!(f, "({} of extensions), {packets} packets ", self.extensions)?;
        write!(f, "({} replies, {} errors, ", self.replies, self.errors)?;
        write!(f, "{} events; {} long), ", self.events, self.long)?;
        if self.fds > 0 {
            write!(f, "{} descriptors, ", self.fds)?;
        }
        write!(f, "last number {}, ", self.last)?;
        write!(f, "{} bytes left over, ", self.left)?;
        write!(f, "{} late syncs, {} unclear, ", self.late, self.unclear)?;
        write!(f, "{} differences", self.differences)
    }
}

/// The server's side of a connection, once the client's first byte chose the order.
struct Server {
    order: ByteOrder,
    setup: Option<Connect>,
    reader: PacketReader,
    engine: Engine,
    /// So many bytes of a long packet are still to come.
    skip: usize,
    /// So many descriptors were handed out.
    handed: u32,
}

#[derive(Default)]
pub struct Check {
    requests: Requests,
    reckoning: Reckoning,
    extensions: Extensions,
    server: Option<Server>,
    counts: Counts,
    /// Where the session is written, if it is.
    pub script: Option<Script>,
}

impl Server {
    fn new(order: ByteOrder) -> Result<Self, Refusal> {
        Ok(Server {
            order,
            setup: Some(Connect::with_buffer(order, b"", b"", SETUP)?.0),
            reader: PacketReader::with_buffer(order, PACKET)?,
            engine: Engine::new(order, OUTSTANDING, STORE)?,
            skip: 0,
            handed: 0,
        })
    }

    /// Takes some of the bytes, one at least: how many, and what they were.
    fn take(&mut self, bytes: &[u8]) -> Result<(usize, Part), Refusal> {
        if self.skip > 0 {
            let count = self.skip.min(bytes.len());
            self.skip -= count;
            return Ok((count, Part::Rest));
        }
        if let Some(setup) = &mut self.setup {
            let count = fill(setup.buffer(), bytes);
            if setup.try_advance(count)? {
                self.setup = None;
            }
            return Ok((count, Part::Setup));
        }
        let count = fill(self.reader.buffer(), bytes);
        let part = match self.reader.try_advance_with_class(count) {
            Err(Refusal::LongPacket) => Part::Long(self.long_packet(count)?, self.skip),
            packet => packet?.map_or(Part::Open, Part::Packet),
        };
        Ok((count, part))
    }

    /// The first 32 bytes of a packet that the reader refused, which left it as it was, and its class.
    fn long_packet(&mut self, count: usize) -> Result<PacketWithClass, Refusal> {
        let mut packet = self.reader.filled().to_vec();
        packet.extend_from_slice(&self.reader.buffer()[..count]);
        let (length, class) = packet_length_with_class(packet[0], get32(self.order, &packet, 4));
        self.skip = length - packet.len();
        self.reader = PacketReader::with_buffer(self.order, PACKET)?;
        Ok((packet, class))
    }

    /// How many bytes of a setup or a packet that is not whole are there.
    fn left(&self) -> usize {
        match &self.setup {
            Some(setup) => setup.filled().len(),
            None if self.skip > 0 => LEAST,
            None => self.reader.filled().len(),
        }
    }

    /// Files a packet and takes it back: the engine's number, and whether what came back is that packet, of its
    /// class, with the next descriptors, so many.
    fn file(
        &mut self,
        (packet, class): &PacketWithClass,
        truth: Option<u64>,
        count: usize,
    ) -> Result<(u64, bool), Refusal> {
        let engine = &mut self.engine;
        let (place, number, filed) = engine.enqueue_packet_with_class(packet)?;
        let back = match place {
            Place::Dropped => return Ok((number, false)),
            Place::Events => {
                let event = engine.poll_for_event_with_class()?;
                event.map(|(packet, number, class)| (packet, number, class, Vec::new()))
            }
            Place::Replies => {
                let asked = truth.unwrap_or(number);
                let back = engine.poll_for_reply_or_error_with_class(asked)?;
                back.map(|(packet, fds, class)| (packet, asked, class, fds))
            }
        };
        let fds = numbers(self.handed, count).collect();
        self.handed += back.as_ref().map_or(0, |back| back.3.len() as u32);
        let due = (packet.clone(), number, *class, fds);
        Ok((number, filed == *class && back == Some(due)))
    }
}

/// The numbers of so many descriptors behind so many others.
fn numbers(before: u32, count: usize) -> Range<u32> {
    before + 1..before + 1 + count as u32
}

/// Copies as much as fits; how much.
fn fill(part: &mut [u8], bytes: &[u8]) -> usize {
    let count = part.len().min(bytes.len());
    part[..count].copy_from_slice(&bytes[..count]);
    count
}

impl Check {
    /// Takes bytes of the client, before the server gets them: how many. Fewer than there are, where the
    /// engine's room for outstanding requests is full; packets of the server will make room.
    pub fn client(&mut self, bytes: &[u8]) -> Result<usize, Refusal> {
        let mut taken = 0;
        while taken < bytes.len() && !(self.requests.between() && self.is_full()) {
            taken += match self.requests.step(&bytes[taken..]) {
                Step::Bytes(count) => count,
                Step::Request(count, opcode, detail) => {
                    self.request(opcode, detail)?;
                    count
                }
                Step::Bad => return Err(Refusal::BadOrder),
            };
            if let (None, Some(order)) = (&self.server, self.requests.order) {
                self.server = Some(Server::new(order)?);
                self.record(|script| script.start(order));
            }
        }
        Ok(taken)
    }

    fn is_full(&self) -> bool {
        let full = |server: &Server| server.engine.outstanding_len() == OUTSTANDING;
        self.server.as_ref().is_some_and(full)
    }

    /// Does something to the script, where the session is written.
    fn record(&mut self, act: impl FnOnce(&mut Script)) {
        if let Some(script) = &mut self.script {
            act(script);
        }
    }

    fn request(&mut self, opcode: u8, detail: u8) -> Result<(), Refusal> {
        self.reckoning.request(opcode);
        self.counts.requests += 1;
        let sent = self.reckoning.sent;
        if opcode == QUERY_EXTENSION {
            self.extensions.query(sent, &self.requests.name);
        }
        let answer = answer(opcode);
        self.counts.extensions += u64::from(answer == Answer::Unknown);
        let number = match answer {
            Answer::None => self.without_reply()?,
            Answer::Unknown if self.extensions.request(sent, opcode, detail) => {
                self.send(Kind::Fds)?
            }
            _ => self.send(Kind::Reply)?,
        };
        if number != sent {
            self.differs(&format!("request {sent} is {number} to the engine"));
        }
        Ok(())
    }

    /// A request that is never refused for want of a sync.
    fn send(&mut self, kind: Kind) -> Result<u64, Refusal> {
        self.record(|script| script.request(kind));
        let server = self.server.as_mut().expect("the order is known");
        server.engine.send_request(match kind {
            Kind::Fds => ReplyFdKind::ReplyWithFDs,
            _ => ReplyFdKind::ReplyWithoutFDs,
        })
    }

    /// Where a sync is due it is told as one with a reply.
    fn without_reply(&mut self) -> Result<u64, Refusal> {
        let server = self.server.as_mut().expect("the order is known");
        match server.engine.send_request(ReplyFdKind::NoReply) {
            Err(Refusal::SyncFirst) => {
                self.counts.late += 1;
                self.record(Script::late);
                self.send(Kind::Reply)
            }
            number => {
                self.record(|script| script.request(Kind::None));
                number
            }
        }
    }

    /// So many descriptors of the server came with the bytes that follow.
    pub fn fds(&mut self, count: usize) -> Result<(), Refusal> {
        if count == 0 {
            return Ok(());
        }
        let fds: Vec<u32> = numbers(self.counts.fds, count).collect();
        self.counts.fds += count as u32;
        self.record(|script| script.fds(&fds));
        let server = self.server.as_mut().ok_or(Refusal::Incomplete)?;
        server.engine.enqueue_fds(&fds)
    }

    /// Takes bytes of the server, before the client gets them.
    pub fn server(&mut self, bytes: &[u8]) -> Result<(), Refusal> {
        let mut rest = bytes;
        while !rest.is_empty() {
            let server = self.server.as_mut().ok_or(Refusal::Incomplete)?;
            let (count, part) = server.take(rest)?;
            self.record(|script| script.server(&rest[..count], &part));
            rest = &rest[count..];
            match part {
                Part::Packet(packet) => self.packet(packet)?,
                Part::Long(head, _) => {
                    self.counts.long += 1;
                    self.packet(head)?;
                }
                _ => {}
            }
        }
        self.record(Script::flush);
        Ok(())
    }

    fn packet(&mut self, read: PacketWithClass) -> Result<(), Refusal> {
        let (packet, class) = &read;
        match class {
            PacketClass::Error => self.counts.errors += 1,
            PacketClass::Reply => self.counts.replies += 1,
            _ => self.counts.events += 1,
        }
        let server = self.server.as_mut().expect("a packet was read");
        let wire = get16(server.order, packet, 2);
        let truth = self.reckoning.packet(packet, *class, wire);
        let known = match truth {
            Truth::Number(number) => Some(number),
            _ => None,
        };
        let fds = known.map_or(0, |number| self.extensions.packet(number, packet, *class));
        let (number, whole) = server.file(&read, known, fds)?;
        self.counts.last = self.counts.last.max(number);
        match truth {
            Truth::Number(truth) if number == truth && whole => {}
            Truth::Number(truth) => self.differs(&format!(
                "packet of code {}, {class}: number {truth}, {number} to the engine; came back whole: {whole}",
                packet[0]
            )),
            Truth::Unclear => self.counts.unclear += 1,
            Truth::Wrong(why) => self.differs(&format!("number {number} to the engine: {why}")),
        }
        Ok(())
    }

    /// What is said at the end.
    pub fn counts(&self) -> Counts {
        Counts {
            left: self.server.as_ref().map_or(0, Server::left),
            ..self.counts.clone()
        }
    }

    /// The engine refused what it must take; the connection can't go on.
    pub fn refused(&mut self, refusal: Refusal) {
        self.differs(&refusal.to_string());
    }

    fn differs(&mut self, text: &str) {
        self.counts.differences += 1;
        if self.counts.differences <= TOLD {
            eprintln!("tap: DIFFERENCE: {text}");
        }
    }
}

#[cfg(test)]
mod test {
    use super::*;

    const FOCUS: u8 = 43;
    const NOTHING: u8 = 127;
    const EVENT: u8 = 28;

    fn two(order: ByteOrder, number: u16) -> [u8; 2] {
        match order {
            ByteOrder::Little => number.to_le_bytes(),
            ByteOrder::Big => number.to_be_bytes(),
        }
    }

    /// A connection after its setup.
    fn open(order: ByteOrder) -> Check {
        let mut check = Check::default();
        let first = if order == ByteOrder::Big { b'B' } else { b'l' };
        let mut setup = [0; 12];
        setup[0] = first;
        assert_eq!(check.client(&setup), Ok(12));
        assert_eq!(check.server(&[1, 0, 0, 0, 0, 0, 0, 0]), Ok(()));
        check
    }

    fn requests(order: ByteOrder, count: usize, opcode: u8) -> Vec<u8> {
        let [a, b] = two(order, 1);
        [opcode, 0, a, b].repeat(count)
    }

    fn packet(order: ByteOrder, code: u8, number: u16, units: u16) -> Vec<u8> {
        let mut bytes = vec![0; 32 + 4 * usize::from(units)];
        bytes[0] = code;
        bytes[2..4].copy_from_slice(&two(order, number));
        let at = if order == ByteOrder::Big { 6 } else { 4 };
        bytes[at..at + 2].copy_from_slice(&two(order, units));
        bytes
    }

    #[test]
    fn past_the_wrap() {
        for order in [ByteOrder::Little, ByteOrder::Big] {
            let mut check = open(order);
            for round in 1..=3u16 {
                check.client(&requests(order, 59_999, NOTHING)).unwrap();
                check.client(&requests(order, 1, FOCUS)).unwrap();
                let number = round.wrapping_mul(60_000);
                let both = [packet(order, 1, number, 2), packet(order, EVENT, number, 0)].concat();
                both.chunks(7).for_each(|part| check.server(part).unwrap());
            }
            let expected = Counts {
                requests: 180_000,
                replies: 3,
                events: 3,
                last: 180_000,
                ..Counts::default()
            };
            assert_eq!(check.counts(), expected);
            check.server(&[1, 0, 0]).unwrap();
            assert_eq!(check.counts().left, 3);
        }
    }

    #[test]
    fn a_packet_that_is_too_long_is_passed_over() {
        let order = ByteOrder::Little;
        let mut check = open(order);
        check.client(&requests(order, 2, FOCUS)).unwrap();
        let both = [packet(order, 1, 1, 20_000), packet(order, 1, 2, 0)].concat();
        both.chunks(1_000)
            .for_each(|part| check.server(part).unwrap());
        let counts = check.counts;
        assert_eq!((counts.replies, counts.long), (2, 1));
        assert_eq!((counts.last, counts.differences), (2, 0));
    }

    #[test]
    fn a_full_room_waits_for_packets() {
        let order = ByteOrder::Little;
        let mut check = open(order);
        let bytes = requests(order, 70_000, FOCUS);
        assert_eq!(check.client(&bytes), Ok(4 * OUTSTANDING));
        assert_eq!(check.client(&bytes), Ok(0));
        check.server(&packet(order, 1, 1, 0)).unwrap();
        assert_eq!(check.client(&bytes), Ok(0));
        check.server(&packet(order, 1, 2, 0)).unwrap();
        assert_eq!(check.client(&bytes), Ok(4));
        assert_eq!(check.counts.differences, 0);
    }

    #[test]
    fn a_client_without_syncs_is_seen() {
        let order = ByteOrder::Little;
        let mut check = open(order);
        check.client(&requests(order, 65_535, NOTHING)).unwrap();
        assert_eq!((check.counts.late, check.counts.differences), (1, 0));
    }

    /// A descriptor is asked for once the opcode of its extension is known.
    #[test]
    fn descriptors() {
        let order = ByteOrder::Little;
        let mut check = open(order);
        check.client(b"\x62\0\x04\0\x07\0\0\0MIT-SHM.").unwrap();
        let mut shm = packet(order, 1, 1, 0);
        (shm[8], shm[9]) = (1, 130);
        check.server(&shm).unwrap();
        check.client(b"\x82\x07\x01\0\x82\x07\x01\0").unwrap();
        for number in [2, 3] {
            let mut reply = packet(order, 1, number, 0);
            reply[1] = number as u8;
            check.fds(number.into()).unwrap();
            check.server(&reply).unwrap();
        }
        let counts = check.counts();
        assert_eq!((counts.fds, counts.last, counts.differences), (5, 3, 0));
        let server = check.server.as_ref().unwrap();
        assert!(server.handed == 5 && server.engine.inside().is_empty());
        check.client(b"\x82\x07\x01\0").unwrap();
        let mut reply = packet(order, 1, 4, 0);
        reply[1] = 1;
        assert_eq!(check.server(&reply), Err(Refusal::FewDescriptors));
    }

    /// An engine that is led astray, by a packet that is not the server's or by a request that is not the
    /// client's, refuses what comes or is found out.
    #[test]
    fn a_wrong_number_is_a_difference() {
        let order = ByteOrder::Little;
        let mut check = open(order);
        check.client(&requests(order, 9, FOCUS)).unwrap();
        let (stray, event) = (packet(order, EVENT, 5, 0), packet(order, EVENT, 1, 0));
        let server = check.server.as_mut().unwrap();
        let filed = server.file(&(stray, PacketClass::Event), None, 0);
        assert_eq!(filed, Ok((5, true)));
        let other = (packet(order, EVENT, 5, 0), PacketClass::SentEvent);
        assert_eq!(server.file(&other, None, 0), Ok((5, false)));
        assert_eq!(check.server(&event), Err(Refusal::Ahead));
        check.client(&requests(order, 65_528, NOTHING)).unwrap();
        check.server(&event).unwrap();
        assert_eq!((check.counts.last, check.counts.differences), (65_537, 1));
        let mut check = open(order);
        let server = check.server.as_mut().unwrap();
        server.engine.send_request(ReplyFdKind::NoReply).unwrap();
        check.client(&requests(order, 1, NOTHING)).unwrap();
        assert_eq!(check.counts.differences, 1);
    }
}
