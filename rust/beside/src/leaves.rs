//! Readers, handshakes and allocators on both sides.

use std::panic::{catch_unwind, AssertUnwindSafe};

use xiengmado::{ByteOrder, Refusal};

use crate::chance::Chance;
use crate::client::{met, told, Both};
use crate::connection::ReplyFdKind;
use crate::sessions::{long_size, sent_number, set_number};

/// The longest packet that is compared. A greater length that a damaged packet claims the Rust takes in memory.
const MOST: usize = 500_000;

/// A packet as a server could send it, whole; now and then one over 65,536 bytes.
fn whole(chance: &mut Chance) -> Vec<u8> {
    let code = chance.pick(&[0, 1, 1, 2, 11, 35, 35, 128, 129, 163, 28]);
    let units = match chance.once(40) {
        true => (long_size(chance) - 32).div_ceil(4),
        false => chance.pick(&[0, 0, 1, 2, 7, 100]),
    };
    let long = code == 1 || code & 0x7f == 35;
    let mut bytes = chance.bytes(if long { 32 + 4 * units } else { 32 });
    bytes[0] = code;
    if long {
        bytes[4..8].copy_from_slice(&(units as u32).to_le_bytes());
    }
    bytes
}

/// A reader on both sides, fed the same pieces.
struct Reader {
    ours: xiengmado::packet_reader::PacketReader,
    theirs: crate::packet_reader::PacketReader,
    calls: u64,
}

impl Reader {
    fn new(buffer: usize) -> Self {
        Reader {
            ours: xiengmado::packet_reader::PacketReader::with_buffer(ByteOrder::Little, buffer)
                .unwrap(),
            theirs: crate::packet_reader::PacketReader::new(),
            calls: 0,
        }
    }

    fn compare(&mut self) {
        self.calls += 1;
        let capacity = self.ours.remaining_capacity();
        assert_eq!(self.ours.buffer().len(), capacity, "buffer");
        let (read, wanted) = crate::packet_reader::view(&self.theirs);
        assert!(self.ours.filled() == read, "bytes read");
        // The Rust lends all that a packet wants; here a long one is lent in parts.
        let part = (read.len() + 1).next_power_of_two().max(65_536);
        assert_eq!(capacity, wanted.min(part) - read.len(), "capacity");
    }

    /// One piece; `Err` where the packet is longer than any that is compared: there the run ends.
    fn feed(&mut self, piece: &[u8]) -> Result<Option<Vec<u8>>, Refusal> {
        self.ours.buffer()[..piece.len()].copy_from_slice(piece);
        let ours = match self.ours.try_advance_with_class(piece.len()) {
            Err(Refusal::LongPacket) if self.wanted(piece) <= MOST => {
                self.compare();
                self.ours.advance_with_class(piece.len())
            }
            answer => answer?,
        };
        let ours = ours.map(|(packet, class)| {
            told("advance", &packet, class);
            packet
        });
        self.theirs.buffer()[..piece.len()].copy_from_slice(piece);
        let theirs = self.theirs.advance(piece.len());
        assert!(ours == theirs, "advance");
        let long = ours.as_ref().is_some_and(|packet| packet.len() > 65_536);
        met(|met| met.long.gathered += u64::from(long));
        self.compare();
        Ok(ours)
    }

    /// Part of a damaged packet is forgotten: what comes next begins a packet.
    fn begin_again(&mut self) {
        let calls = self.calls;
        *self = Reader::new(65_536);
        self.calls = calls;
    }

    /// How long the packet is that a piece makes 32 bytes long.
    fn wanted(&self, piece: &[u8]) -> usize {
        let head = [self.ours.filled(), piece].concat();
        let field = u32::from_le_bytes([head[4], head[5], head[6], head[7]]);
        xiengmado::packet_reader::packet_length(head[0], field)
    }
}

/// How many bytes go in next: few, all that is wanted, or none.
fn piece(chance: &mut Chance, wanted: usize, left: usize) -> usize {
    let most = wanted.min(left) as u64;
    match chance.below(4) {
        0 => most as usize,
        1 => chance.below(most + 1) as usize,
        _ => chance.below(9).min(most) as usize,
    }
}

/// Streams of packets, some of them damaged or cut, in odd pieces.
pub fn readers(chance: &mut Chance) -> u64 {
    (0..20).map(|_| reader(chance)).sum()
}

/// One of them, to its end or to a packet that is longer than any that is compared.
fn reader(chance: &mut Chance) -> u64 {
    let mut reader = Reader::new(chance.pick(&[32, 40, 432, 65_536]));
    let mut stream: Vec<u8> = (0..30).flat_map(|_| whole(chance)).collect();
    damage(chance, &mut stream);
    let mut rest = &stream[..];
    while !rest.is_empty() {
        let n = piece(chance, reader.ours.remaining_capacity(), rest.len());
        if let Err(refusal) = reader.feed(&rest[..n]) {
            assert_eq!(refusal, Refusal::LongPacket);
            break;
        }
        rest = &rest[n..];
    }
    reader.calls
}

fn damage(chance: &mut Chance, stream: &mut Vec<u8>) {
    if chance.once(2) {
        for _ in 0..chance.below(6) {
            let at = chance.below(stream.len() as u64) as usize;
            stream[at] = chance.next() as u8;
        }
    }
    if chance.once(3) {
        let at = chance.below(stream.len() as u64) as usize;
        stream.truncate(at);
    }
}

/// Streams through both readers into both connections.
pub fn streams(chance: &mut Chance) -> u64 {
    let mut reader = Reader::new(65_536);
    let mut both = Both::new(65_536, 1_000_000);
    let mut next_fd = 0;
    for _ in 0..200 {
        ask(&mut both, chance);
        let (bytes, number) = sent(&both, chance);
        if !through(&mut reader, &mut both, chance, &bytes, &mut next_fd) {
            return reader.calls + both.calls;
        }
        if !reader.ours.filled().is_empty() {
            reader.begin_again();
        }
        match chance.below(4) {
            0 => both.poll_event(),
            1 => both.poll_reply(number),
            2 => both.poll_reply_or_error(number),
            _ => both.poll_check(number),
        }
    }
    reader.calls + both.finish()
}

/// Up to three requests.
fn ask(both: &mut Both, chance: &mut Chance) {
    for _ in 0..chance.below(4) {
        both.send(chance.pick(&[
            ReplyFdKind::NoReply,
            ReplyFdKind::ReplyWithoutFDs,
            ReplyFdKind::ReplyWithFDs,
        ]));
    }
}

/// What the server sends next, now and then damaged, and its number: one from the last read to the last written.
fn sent(both: &Both, chance: &mut Chance) -> (Vec<u8>, u64) {
    let (mut bytes, number) = (whole(chance), sent_number(both, chance));
    bytes[1] = chance.below(3) as u8;
    set_number(&mut bytes, number);
    if chance.once(30) {
        damage(chance, &mut bytes);
    }
    (bytes, number)
}

/// Bytes in odd pieces through the readers, and the packets that come out into the connections, each with the
/// descriptors that it claims, up to three; false ends the run.
fn through(
    reader: &mut Reader,
    both: &mut Both,
    chance: &mut Chance,
    bytes: &[u8],
    next_fd: &mut u32,
) -> bool {
    let mut rest = bytes;
    while !rest.is_empty() {
        let n = piece(chance, reader.ours.remaining_capacity(), rest.len());
        let Ok(packet) = reader.feed(&rest[..n]) else {
            return false;
        };
        rest = &rest[n..];
        let Some(packet) = packet else { continue };
        let list: Vec<u32> = (*next_fd..*next_fd + u32::from(packet[1]).min(3)).collect();
        *next_fd += 3;
        both.fds(&list);
        if !both.packet(&packet) {
            return false;
        }
    }
    true
}

/// Setup replies in odd pieces. Outside the domain: a zero length, and 0 bytes more at 8.
pub fn handshakes(chance: &mut Chance) -> u64 {
    (0..200).map(|_| handshake(chance)).sum()
}

fn handshake(chance: &mut Chance) -> u64 {
    let most = chance.pick(&[4, 300, 65_535]);
    let units = 1 + chance.below(most);
    let mut reply = chance.bytes(8 + 4 * units as usize);
    reply[6..8].copy_from_slice(&(units as u16).to_le_bytes());
    let (mut ours, _) =
        xiengmado::connect::Connect::with_buffer(ByteOrder::Little, b"", b"", 262_148).unwrap();
    let (mut theirs, _) = crate::connect::Connect::with_authorization(Vec::new(), Vec::new());
    if chance.once(3) {
        reply.truncate(chance.below(reply.len() as u64) as usize);
    }
    let mut calls = 1;
    let mut rest = &reply[..];
    while !rest.is_empty() {
        assert_eq!(ours.buffer().len(), theirs.buffer().len(), "buffer");
        let n = if reply.len() > 2000 {
            let most = ours.buffer().len().min(rest.len()) as u64;
            chance.below(5000).min(most) as usize
        } else {
            piece(chance, ours.buffer().len(), rest.len())
        };
        if n > 0 {
            shake(&mut ours, &mut theirs, &rest[..n]);
            rest = &rest[n..];
            calls += 1;
        }
    }
    compare_setups(ours, theirs);
    calls
}

/// One piece of a reply.
fn shake(
    ours: &mut xiengmado::connect::Connect,
    theirs: &mut crate::connect::Connect,
    piece: &[u8],
) {
    let n = piece.len();
    ours.buffer()[..n].copy_from_slice(piece);
    theirs.buffer()[..n].copy_from_slice(piece);
    assert_eq!(ours.advance(n), theirs.advance(n), "advance");
    let (read, wanted) = crate::connect::view(theirs);
    assert_eq!(ours.filled(), read, "bytes read");
    assert_eq!(ours.filled().len() + ours.buffer().len(), wanted, "wanted");
}

/// The published parsers aren't given: what is compared is when a setup is there to be read.
fn compare_setups(ours: xiengmado::connect::Connect, theirs: crate::connect::Connect) {
    use crate::errors::ConnectError as Theirs;
    use xiengmado::errors::ConnectError as Ours;
    match (ours.into_setup(), theirs.into_setup()) {
        (
            Err(Ours::Incomplete { expected, received }),
            Err(Theirs::Incomplete {
                expected: e,
                received: r,
            }),
        ) => assert_eq!((expected, received), (e, r), "incomplete"),
        (Err(Ours::Incomplete { .. }), other) | (_, other @ Err(Theirs::Incomplete { .. })) => {
            panic!(
                "into_setup: one side is incomplete, the Rust says {:?}",
                other.err()
            )
        }
        _ => {}
    }
}

/// Allocators. A run ends where the Rust's numbers overflow.
pub fn ids(chance: &mut Chance) -> u64 {
    let mut calls = 0;
    for _ in 0..200 {
        let base = number(chance);
        let mask = if chance.once(20) { 0 } else { number(chance) };
        let ours = xiengmado::id_allocator::IdAllocator::new(base, mask);
        let theirs = crate::id_allocator::IdAllocator::new(base, mask);
        calls += 1;
        assert_eq!(ours.is_ok(), theirs.is_ok(), "new {base} {mask}");
        let (Ok(mut ours), Ok(mut theirs)) = (ours, theirs) else {
            continue;
        };
        for _ in 0..chance.below(40) {
            let ended = if chance.once(6) {
                let (start, count) = (number(chance), number(chance));
                range(&mut ours, &mut theirs, start, count)
            } else {
                generate(&mut ours, &mut theirs)
            };
            calls += 1;
            if ended {
                break;
            }
            assert_eq!(
                ours.numbers(),
                crate::id_allocator::view(&theirs),
                "numbers"
            );
        }
    }
    calls
}

fn number(chance: &mut Chance) -> u32 {
    match chance.below(5) {
        0 => chance.below(6) as u32,
        1 => u32::MAX - chance.below(6) as u32,
        2 => 1 << chance.below(32),
        3 => (chance.below(1 << 20) as u32) << chance.below(12),
        _ => chance.next() as u32,
    }
}

type Ours = xiengmado::id_allocator::IdAllocator;
type Theirs = crate::id_allocator::IdAllocator;

fn generate(ours: &mut Ours, theirs: &mut Theirs) -> bool {
    match catch_unwind(AssertUnwindSafe(|| theirs.generate_id())) {
        Ok(id) => {
            assert_eq!(ours.generate_id(), id, "generate_id");
            false
        }
        Err(_) => true,
    }
}

fn range(ours: &mut Ours, theirs: &mut Theirs, start: u32, count: u32) -> bool {
    let reply = crate::protocol::xc_misc::GetXIDRangeReply {
        start_id: start,
        count,
    };
    let ask = xiengmado::protocol::xc_misc::GetXIDRangeReply {
        start_id: start,
        count,
        ..Default::default()
    };
    let answer = ours.try_update_xid_range(&ask);
    match catch_unwind(AssertUnwindSafe(|| theirs.update_xid_range(&reply))) {
        Ok(there) => {
            assert_eq!(
                answer.is_ok(),
                there.is_ok(),
                "update_xid_range {start} {count}"
            );
            false
        }
        Err(_) => {
            assert_eq!(
                answer,
                Err(Refusal::BadRange),
                "update_xid_range {start} {count}"
            );
            true
        }
    }
}
