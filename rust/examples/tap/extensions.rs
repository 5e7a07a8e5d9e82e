//! Requests of extensions whose reply has descriptors. Byte 1 of such a reply says how many.
//!
//! Which opcode an extension has the server says in its reply to QueryExtension.

use std::collections::VecDeque;

use xiengmado::PacketClass;

/// Extensions, and the minor opcodes of such requests: CreateSegment; Open, BufferFromPixmap, FDFromFence and
/// BuffersFromPixmap.
const KNOWN: [(&[u8], &[u8]); 2] = [(b"MIT-SHM", &[7]), (b"DRI3", &[1, 3, 5, 8])];

/// What the reply of a request has.
enum Awaited {
    /// The opcode of the known extension with this place.
    Opcode(usize),
    Descriptors,
}

#[derive(Default)]
pub struct Extensions {
    opcodes: [Option<u8>; KNOWN.len()],
    awaited: VecDeque<(u64, Awaited)>,
}

impl Extensions {
    /// The client asks for an extension by the request with this number.
    pub fn query(&mut self, number: u64, name: &[u8]) {
        if let Some(place) = KNOWN.iter().position(|known| known.0 == name) {
            self.awaited.push_back((number, Awaited::Opcode(place)));
        }
    }

    /// The client sends a request of an extension: whether its reply has descriptors.
    pub fn request(&mut self, number: u64, opcode: u8, minor: u8) -> bool {
        let mut known = KNOWN.iter().zip(self.opcodes);
        let has = known.any(|(known, its)| its == Some(opcode) && known.1.contains(&minor));
        if has {
            self.awaited.push_back((number, Awaited::Descriptors));
        }
        has
    }

    /// The server sends a packet with this number: how many descriptors it has.
    pub fn packet(&mut self, number: u64, packet: &[u8], class: PacketClass) -> usize {
        let mut found = None;
        while let Some(&(awaited, _)) = self.awaited.front() {
            if awaited > number || (awaited == number && class.is_event()) {
                break;
            }
            found = self.awaited.pop_front().filter(|_| awaited == number);
        }
        match found {
            Some((_, what)) if class == PacketClass::Reply => self.reply(what, packet),
            _ => 0,
        }
    }

    fn reply(&mut self, what: Awaited, packet: &[u8]) -> usize {
        match what {
            Awaited::Descriptors => usize::from(packet[1]),
            Awaited::Opcode(place) => {
                self.opcodes[place] = (packet[8] != 0).then_some(packet[9]);
                0
            }
        }
    }
}

#[cfg(test)]
mod test {
    use super::*;
    use PacketClass::{Error, Event, Reply};

    fn packet(detail: u8, present: u8, opcode: u8) -> [u8; 32] {
        let mut bytes = [0; 32];
        (bytes[1], bytes[8], bytes[9]) = (detail, present, opcode);
        bytes
    }

    #[test]
    fn opcodes_are_learnt() {
        let mut e = Extensions::default();
        for (number, name) in [(1, "MIT-SHM"), (2, "RENDER"), (3, "DRI3"), (4, "DRI3")] {
            e.query(number, name.as_bytes());
        }
        assert!(!e.request(5, 130, 7));
        assert_eq!(e.packet(1, &packet(0, 1, 130), Reply), 0);
        assert_eq!(e.packet(2, &packet(0, 1, 139), Reply), 0);
        assert!(e.request(6, 130, 7));
        assert!(!e.request(7, 130, 1) && !e.request(7, 139, 7));
        assert_eq!(e.packet(3, &packet(0, 0, 149), Reply), 0);
        assert!(!e.request(8, 149, 1));
        assert_eq!(e.packet(4, &packet(0, 1, 149), Reply), 0);
        let minors: Vec<u8> = (0..12).filter(|&m| e.request(9, 149, m)).collect();
        assert_eq!(minors, [1, 3, 5, 8]);
    }

    #[test]
    fn replies_have_descriptors() {
        let mut e = Extensions::default();
        e.query(1, b"MIT-SHM");
        e.packet(1, &packet(0, 1, 130), Reply);
        assert!([2, 4, 6, 8].iter().all(|&n| e.request(n, 130, 7)));
        assert_eq!(e.packet(2, &packet(9, 0, 0), Event), 0);
        assert_eq!(e.packet(2, &packet(1, 0, 0), Reply), 1);
        assert_eq!(e.packet(3, &packet(5, 0, 0), Reply), 0);
        assert_eq!(e.packet(4, &packet(9, 0, 0), Error), 0);
        assert_eq!(e.packet(7, &packet(5, 0, 0), Reply), 0);
        assert_eq!(e.packet(8, &packet(3, 0, 0), Reply), 3);
        assert!(e.awaited.is_empty());
    }
}
