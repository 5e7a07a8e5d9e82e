//! The client's bytes, cut into requests.
//!
//! First comes the setup request: 12 bytes, a name and data, each filled up to a multiple of four. Then
//! every request starts with its opcode, a byte of detail and its length in units of four bytes; where that
//! is 0 a 32-bit length follows (the extension BIG-REQUESTS).

use crate::wire::{get16, get32};
use xiengmado::ByteOrder;

const SETUP_HEADER: usize = 12;
const HEADER: usize = 4;
const BIG_HEADER: usize = 8;

/// The core request that asks for an extension; its name, behind 8 bytes, counts as part of its header.
pub const QUERY_EXTENSION: u8 = 98;
const NAME: usize = 8;

/// The first opcode that belongs to extensions.
const FIRST_EXTENSION: u8 = 128;

/// The core requests that have a reply, after Core's encoding.
const WITH_REPLY: [u8; 40] = [
    3, 14, 15, 16, 17, 20, 21, 23, 26, 31, 38, 39, 40, 43, 44, 47, 48, 49, 50, 52, 73, 83, 84, 85,
    86, 87, 91, 92, 97, 98, 99, 101, 103, 106, 108, 110, 116, 117, 118, 119,
];

/// Whether a request has a reply. Of an extension's request this is not known.
#[derive(Debug, Clone, Copy, PartialEq, Eq)]
pub enum Answer {
    None,
    Reply,
    Unknown,
}

pub fn answer(opcode: u8) -> Answer {
    if opcode >= FIRST_EXTENSION {
        Answer::Unknown
    } else if WITH_REPLY.contains(&opcode) {
        Answer::Reply
    } else {
        Answer::None
    }
}

/// Where the client's stream stands.
#[derive(Default)]
pub struct Requests {
    /// The order that the client's first byte chose.
    pub order: Option<ByteOrder>,
    ready: bool,
    header: Vec<u8>,
    /// So many bytes of the last request are still to come.
    left: u64,
    /// The name in the last QueryExtension.
    pub name: Vec<u8>,
}

/// What a step found.
#[derive(Debug, PartialEq, Eq)]
pub enum Step {
    /// Bytes that start no request.
    Bytes(usize),
    /// So many bytes, with which the header of a request is complete; its opcode and its byte of detail.
    Request(usize, u8, u8),
    /// A first byte that chooses no order.
    Bad,
}

impl Requests {
    /// Whether the next byte is the first of a request.
    pub fn between(&self) -> bool {
        self.ready && self.left == 0 && self.header.is_empty()
    }

    /// Goes on by some of the bytes, which are one at least: to the end of a request, or of a header.
    pub fn step(&mut self, bytes: &[u8]) -> Step {
        if self.left > 0 {
            let count = self.left.min(bytes.len() as u64);
            self.left -= count;
            return Step::Bytes(count as usize);
        }
        let order = match (self.order, bytes[0]) {
            (Some(order), _) => order,
            (None, b'l') => ByteOrder::Little,
            (None, b'B') => ByteOrder::Big,
            _ => return Step::Bad,
        };
        self.order = Some(order);
        let count = (self.wanted(order) - self.header.len()).min(bytes.len());
        self.header.extend_from_slice(&bytes[..count]);
        if self.header.len() < self.wanted(order) {
            return Step::Bytes(count);
        }
        self.left = self.length(order) - self.header.len() as u64;
        let step = match self.ready {
            true => Step::Request(count, self.header[0], self.header[1]),
            false => Step::Bytes(count),
        };
        self.keep_name(order);
        self.header.clear();
        self.ready = true;
        step
    }

    /// How many bytes the header has, as far as is known.
    fn wanted(&self, order: ByteOrder) -> usize {
        if !self.ready {
            return SETUP_HEADER;
        }
        if self.header.len() < HEADER {
            return HEADER;
        }
        match get16(order, &self.header, 2) {
            0 => BIG_HEADER,
            units if self.header[0] == QUERY_EXTENSION => HEADER * usize::from(units),
            _ => HEADER,
        }
    }

    fn keep_name(&mut self, order: ByteOrder) {
        if !self.ready || self.header[0] != QUERY_EXTENSION {
            return;
        }
        let size = match self.header.len() {
            ..=NAME => 0,
            _ => usize::from(get16(order, &self.header, 4)),
        };
        let name = self.header.get(NAME..NAME + size);
        self.name = name.unwrap_or_default().to_vec();
    }

    /// How many bytes the request of a complete header has.
    fn length(&self, order: ByteOrder) -> u64 {
        let header = &self.header;
        let padded = |at| u64::from(get16(order, header, at)).next_multiple_of(4);
        let length = match header.len() {
            SETUP_HEADER if !self.ready => SETUP_HEADER as u64 + padded(6) + padded(8),
            BIG_HEADER if get16(order, header, 2) == 0 => 4 * u64::from(get32(order, header, 4)),
            _ => 4 * u64::from(get16(order, header, 2)),
        };
        length.max(header.len() as u64)
    }
}

#[cfg(test)]
mod test {
    use super::*;

    /// The opcodes of a stream that comes in pieces of this size, and the last name in it.
    fn opcodes(stream: &[u8], size: usize) -> (Vec<u8>, Vec<u8>) {
        let mut requests = Requests::default();
        let mut found = Vec::new();
        for piece in stream.chunks(size) {
            let mut rest = piece;
            while !rest.is_empty() {
                let count = match requests.step(rest) {
                    Step::Bytes(count) => count,
                    Step::Request(count, opcode, _) => {
                        found.push(opcode);
                        count
                    }
                    Step::Bad => panic!("bad order"),
                };
                rest = &rest[count..];
            }
        }
        assert!(requests.between());
        (found, requests.name)
    }

    #[test]
    fn in_pieces() {
        let setup = b"l\0\x0b\0\0\0\x05\0\x04\0\0\0NAME1...data";
        let small = b"\x62\0\x03\0\x03\0\0\0ABC.\x7f\0\x01\0";
        let big = b"\x48\x02\0\0\x04\0\0\0--------\x2b\0\x01\0";
        let stream = [&setup[..], small, big].concat();
        for size in 1..stream.len() {
            let found = opcodes(&stream, size);
            assert_eq!(found, (vec![98, 127, 72, 43], b"ABC".to_vec()));
        }
    }

    #[test]
    fn big_endian() {
        let stream = b"B\0\0\x0b\0\0\0\0\0\0\0\0\x7f\0\0\x01\x48\x02\0\0\0\0\0\x03----\x2b\0\0\x01";
        assert_eq!(opcodes(stream, 5).0, [127, 72, 43]);
        assert_eq!(Requests::default().step(b"x"), Step::Bad);
    }

    /// A QueryExtension may be too short for its name, and of any length that its header can say.
    #[test]
    fn names() {
        let setup = b"B\0\0\x0b\0\0\0\0\0\0\0\0";
        let long = b"\x62\0\0\x04\0\x05\0\0NAMES...";
        let name = |query: &[u8]| opcodes(&[setup, &long[..], query].concat(), 3);
        assert_eq!(name(b""), (vec![98], b"NAMES".to_vec()));
        for query in [
            &b"\x62\0\0\x01"[..],
            b"\x62\0\0\x02\0\x04\0\0",
            b"\x62\0\0\x03\0\x05\0\0NAME",
            b"\x62\0\0\0\0\0\0\x03\0\x04\0\0",
        ] {
            assert_eq!(name(query), (vec![98, 98], Vec::new()));
        }
    }

    #[test]
    fn answers() {
        assert_eq!(answer(43), Answer::Reply);
        assert_eq!(answer(127), Answer::None);
        assert_eq!(answer(128), Answer::Unknown);
    }
}
