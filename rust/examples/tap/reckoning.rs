//! Which number a packet truly has, reckoned without the engine. What kind of packet it is the reader has told.
//!
//! A packet has 16 bits of the number. The engine reckons from below: the least number at or above the
//! last read. Here it is reckoned from above, by what was asked: every request is counted before the server
//! gets it, so no packet can have a number above those sent; and the server answers in order, so while the
//! reply of a request is awaited no packet can have a number above that request's. The *ceiling* is the
//! lower of the two. The true number is at or below it, and at or above that of the packet before. If one
//! number alone fits there, it is the true one. If none does, the server or the counting is wrong. If more
//! than one does, then 65,536 requests went by without a packet that says where the server stands; nobody can
//! tell then, and the packet is counted as unclear.
//!
//! Two things besides tell of a wrong number: an error names the opcode of its request, and a reply belongs
//! to a request that has one.

use std::collections::VecDeque;

use xiengmado::PacketClass::{self, Error, Reply};

use crate::requests::{answer, Answer};

/// How many numbers 16 bits can tell apart.
const WIRE: u64 = 65_536;

/// The event that carries no number.
const KEYMAP_NOTIFY: u8 = 11;

/// The core request that has many replies; in the last one byte 1 is 0.
const LIST_FONTS_WITH_INFO: u8 = 50;

/// What is known of a packet's number.
#[derive(Debug, PartialEq, Eq)]
pub enum Truth {
    Number(u64),
    Unclear,
    Wrong(&'static str),
}

/// The requests so far, and the last packet's number.
#[derive(Default)]
pub struct Reckoning {
    pub sent: u64,
    pub last: u64,
    /// The opcodes of the requests from the last packet's to the last sent.
    opcodes: VecDeque<u8>,
    /// The core requests whose reply is awaited.
    awaited: VecDeque<u64>,
}

impl Reckoning {
    /// The client sends a request.
    pub fn request(&mut self, opcode: u8) {
        self.sent += 1;
        self.opcodes.push_back(opcode);
        if answer(opcode) == Answer::Reply {
            self.awaited.push_back(self.sent);
        }
    }

    /// The server sends a packet with this wire number.
    pub fn packet(&mut self, packet: &[u8], class: PacketClass, wire: u16) -> Truth {
        if class.event_code(packet) == Some(KEYMAP_NOTIFY) {
            // It stands behind the packet before.
            return Truth::Number(self.last);
        }
        let ceiling = *self.awaited.front().unwrap_or(&self.sent);
        let below = (ceiling.wrapping_sub(u64::from(wire))) % WIRE;
        let Some(number) = ceiling.checked_sub(below).filter(|&n| n >= self.last) else {
            return Truth::Wrong("no number fits between the packet before and what was asked");
        };
        if number >= self.last + WIRE {
            return Truth::Unclear;
        }
        if let Some(wrong) = self.unfit(packet, class, number) {
            return Truth::Wrong(wrong);
        }
        self.move_to(packet, class, number);
        Truth::Number(number)
    }

    /// The opcode of a request at or above the last packet's.
    fn opcode(&self, number: u64) -> Option<u8> {
        let back = (self.sent - number) as usize;
        let place = self.opcodes.len().checked_sub(back + 1)?;
        self.opcodes.get(place).copied()
    }

    /// Why a reply or an error can't be that of the request with this number.
    fn unfit(&self, packet: &[u8], class: PacketClass, number: u64) -> Option<&'static str> {
        let opcode = self.opcode(number);
        match class {
            Error if opcode != Some(packet[10]) => Some("an error names another opcode"),
            Reply if opcode.is_none_or(|opcode| answer(opcode) == Answer::None) => {
                Some("a reply to a request that has none")
            }
            Reply if opcode.is_some_and(|opcode| answer(opcode) == Answer::Reply) => {
                let awaited = self.awaited.front() == Some(&number);
                (!awaited).then_some("a second reply")
            }
            _ => None,
        }
    }

    /// The server stands at this number; an awaited reply may have come, or an error in its place.
    fn move_to(&mut self, packet: &[u8], class: PacketClass, number: u64) {
        let more =
            class == Reply && packet[1] != 0 && self.opcode(number) == Some(LIST_FONTS_WITH_INFO);
        if !class.is_event() && !more && self.awaited.front() == Some(&number) {
            self.awaited.pop_front();
        }
        self.last = number;
        while self.opcodes.len() as u64 > self.sent - number + 1 {
            self.opcodes.pop_front();
        }
    }
}

#[cfg(test)]
mod test {
    use super::*;
    use xiengmado::packet_reader::packet_length_with_class;

    const FOCUS: u8 = 43;
    const NOTHING: u8 = 127;
    const ERROR: u8 = 0;
    const REPLY: u8 = 1;
    const EVENT: u8 = 28;

    fn packet(code: u8, detail: u8, opcode: u8) -> [u8; 32] {
        let mut bytes = [0; 32];
        (bytes[0], bytes[1], bytes[10]) = (code, detail, opcode);
        bytes
    }

    impl Reckoning {
        fn came(&mut self, packet: &[u8], wire: u16) -> Truth {
            let (_, class) = packet_length_with_class(packet[0], 0);
            self.packet(packet, class, wire)
        }
    }

    fn after(opcodes: &[(usize, u8)]) -> Reckoning {
        let mut reckoning = Reckoning::default();
        for &(count, opcode) in opcodes {
            (0..count).for_each(|_| reckoning.request(opcode));
        }
        reckoning
    }

    #[test]
    fn an_awaited_reply_is_the_ceiling() {
        // A sync at 65,000 is not answered yet while 70,000 more are on their way.
        let mut r = after(&[(64_999, NOTHING), (1, FOCUS), (70_000, NOTHING)]);
        assert_eq!(r.came(&packet(EVENT, 0, 0), 5), Truth::Number(5));
        assert_eq!(r.came(&packet(REPLY, 0, 0), 65_000), Truth::Number(65_000));
        assert_eq!(r.came(&packet(EVENT, 0, 0), 4_464), Truth::Number(70_000));
        r = after(&[(140_000, NOTHING)]);
        assert_eq!(r.came(&packet(EVENT, 0, 0), 4_464), Truth::Unclear);
    }

    #[test]
    fn what_does_not_fit() {
        let mut r = after(&[(10, NOTHING)]);
        assert_eq!(r.came(&packet(EVENT, 0, 0), 9), Truth::Number(9));
        assert!(matches!(r.came(&packet(EVENT, 0, 0), 8), Truth::Wrong(_)));
        assert!(matches!(r.came(&packet(EVENT, 0, 0), 11), Truth::Wrong(_)));
        assert!(matches!(r.came(&packet(REPLY, 0, 0), 10), Truth::Wrong(_)));
        assert!(matches!(r.came(&packet(ERROR, 3, 8), 10), Truth::Wrong(_)));
        assert_eq!(r.came(&packet(ERROR, 3, NOTHING), 10), Truth::Number(10));
    }

    #[test]
    fn one_reply_unless_it_is_of_many() {
        let mut r = after(&[(1, FOCUS), (1, LIST_FONTS_WITH_INFO), (1, NOTHING)]);
        assert_eq!(r.came(&packet(REPLY, 0, 0), 1), Truth::Number(1));
        assert!(matches!(r.came(&packet(REPLY, 0, 0), 1), Truth::Wrong(_)));
        assert_eq!(r.came(&packet(REPLY, 7, 0), 2), Truth::Number(2));
        assert!(matches!(r.came(&packet(EVENT, 0, 0), 3), Truth::Wrong(_)));
        assert_eq!(r.came(&packet(REPLY, 0, 0), 2), Truth::Number(2));
        assert_eq!(r.came(&packet(EVENT, 0, 0), 3), Truth::Number(3));
        for code in [KEYMAP_NOTIFY, KEYMAP_NOTIFY | 0x80] {
            assert_eq!(r.came(&packet(code, 9, 9), 77), Truth::Number(3));
        }
    }
}
