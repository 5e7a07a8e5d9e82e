//! What kind of packet it is.

use std::fmt;

/// The bit of an event's code that says that SendEvent made it.
const SENT: u8 = 0x80;

/// The class of a packet, as the engine's framing rule gives it: its first byte, the code, decides.
///
/// [`packet_length_with_class`](crate::packet_reader::packet_length_with_class) is that rule. Calls that end in
/// `_with_class` hand the class on with a packet.
///
/// ```
/// use xiengmado::packet_reader::packet_length_with_class;
/// use xiengmado::PacketClass;
///
/// // An Expose event (12) that SendEvent made.
/// let mut event = [0; 32];
/// event[0] = 0x80 | 12;
/// let (length, class) = packet_length_with_class(event[0], 7);
/// assert_eq!((length, class), (32, PacketClass::SentEvent));
/// assert!(class.is_event() && class.was_sent());
/// assert_eq!(class.event_code(&event), Some(12));
/// assert_eq!(class.to_string(), "sent-event");
/// ```
#[derive(Debug, Clone, Copy, PartialEq, Eq, Hash)]
#[repr(u8)]
pub enum PacketClass {
    /// An error.
    Error = 0,
    /// A reply.
    Reply = 1,
    /// An event of the server's.
    Event = 2,
    /// An event that SendEvent made.
    SentEvent = 3,
    /// A generic event, which has a length of its own.
    Generic = 4,
    /// A generic event that SendEvent made.
    SentGeneric = 5,
}

impl PacketClass {
    /// All classes, in the order of their numbers.
    pub const ALL: [PacketClass; 6] = [
        PacketClass::Error,
        PacketClass::Reply,
        PacketClass::Event,
        PacketClass::SentEvent,
        PacketClass::Generic,
        PacketClass::SentGeneric,
    ];

    /// The number of a class, as `enum xm_class` of the header has it.
    pub fn number(self) -> u64 {
        self as u64
    }

    /// The class of a number.
    #[inline]
    pub fn from_number(number: u64) -> Option<PacketClass> {
        match number {
            0 => Some(PacketClass::Error),
            1 => Some(PacketClass::Reply),
            2 => Some(PacketClass::Event),
            3 => Some(PacketClass::SentEvent),
            4 => Some(PacketClass::Generic),
            5 => Some(PacketClass::SentGeneric),
            _ => None,
        }
    }

    /// Whether it is an event, plain or generic.
    pub fn is_event(self) -> bool {
        !matches!(self, PacketClass::Error | PacketClass::Reply)
    }

    /// Whether it is a generic event.
    pub fn is_generic(self) -> bool {
        matches!(self, PacketClass::Generic | PacketClass::SentGeneric)
    }

    /// Whether it is an event that SendEvent made.
    pub fn was_sent(self) -> bool {
        matches!(self, PacketClass::SentEvent | PacketClass::SentGeneric)
    }

    /// Which event a packet of this class is: its code without the bit that says that it was sent. None for an
    /// error and a reply.
    pub fn event_code(self, packet: &[u8]) -> Option<u8> {
        let code = packet.first().filter(|_| self.is_event())?;
        Some(code & !SENT)
    }
}

impl fmt::Display for PacketClass {
    fn fmt(&self, f: &mut fmt::Formatter<'_>) -> fmt::Result {
        f.pad(match self {
            PacketClass::Error => "error",
            PacketClass::Reply => "reply",
            PacketClass::Event => "event",
            PacketClass::SentEvent => "sent-event",
            PacketClass::Generic => "generic",
            PacketClass::SentGeneric => "sent-generic",
        })
    }
}

#[cfg(test)]
mod test {
    use super::*;
    use crate::packet_reader::packet_length_with_class;

    #[test]
    fn numbers_and_classes_are_one_to_one() {
        let all: Vec<_> = (0..300).filter_map(PacketClass::from_number).collect();
        assert_eq!(all, PacketClass::ALL);
        assert!(PacketClass::ALL.iter().map(|class| class.number()).eq(0..6));
    }

    #[test]
    fn words() {
        let words = PacketClass::ALL.map(|class| class.to_string()).join(" ");
        assert_eq!(words, "error reply event sent-event generic sent-generic");
        assert_eq!(format!("{:>7}", PacketClass::Reply), "  reply");
    }

    /// A second reading of Core's table of first bytes, of all of them.
    #[test]
    fn the_rule_of_all_codes() {
        for code in 0..=255 {
            let due = match (code, code < 128, code % 128) {
                (0, ..) => PacketClass::Error,
                (1, ..) => PacketClass::Reply,
                (_, true, 35) => PacketClass::Generic,
                (_, false, 35) => PacketClass::SentGeneric,
                (_, true, _) => PacketClass::Event,
                (_, false, _) => PacketClass::SentEvent,
            };
            let length = match code {
                1 | 35 | 163 => 32 + 4 * 9,
                _ => 32,
            };
            assert_eq!(packet_length_with_class(code, 9), (length, due), "{code}");
            let event = code > 1;
            assert_eq!(due.is_event(), event, "{code}");
            assert_eq!(due.is_generic(), event && length > 32, "{code}");
            assert_eq!(due.was_sent(), code >= 128, "{code}");
            let shown = due.event_code(&[code, 7]);
            assert_eq!(shown, event.then_some(code % 128), "{code}");
        }
        assert_eq!(PacketClass::Event.event_code(&[]), None);
    }
}
