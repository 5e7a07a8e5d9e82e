//! Packets over 65,536 bytes beside the engine, which holds the first 32 bytes of each.
//!
//! While there is one, two lists go with the engine's records: the held replies and the held events, each
//! in its order, and with a long one its bytes. A call that changes the records changes the lists alike.
//! With none both lists are empty, and a call looks at `is_empty` alone.

use std::collections::VecDeque;

use crate::engine::{Place, Record};
use crate::{DiscardMode, PacketClass, SequenceNumber};

/// A long packet, whole, so that nothing is copied when it is handed out. None for a packet of which
/// the engine holds everything.
type Long = Option<Vec<u8>>;

#[derive(Debug, Clone)]
struct Reply {
    number: SequenceNumber,
    class: PacketClass,
    long: Long,
}

#[derive(Debug, Clone, Default)]
pub(crate) struct Rests {
    kept: usize,
    replies: VecDeque<Reply>,
    events: VecDeque<Long>,
}

impl Rests {
    #[inline]
    pub(crate) fn is_empty(&self) -> bool {
        self.kept == 0
    }

    /// A packet was filed as the last of its place.
    pub(crate) fn filed(&mut self, place: Place, number: SequenceNumber, class: PacketClass) {
        match place {
            Place::Replies => self.replies.push_back(Reply {
                number,
                class,
                long: None,
            }),
            Place::Events => self.events.push_back(None),
            Place::Dropped => {}
        }
    }

    /// The records behind those that are listed were filed since.
    pub(crate) fn catch_up<'a>(&mut self, records: impl Iterator<Item = Record<'a>>) {
        for record in records.skip(self.replies.len() + self.events.len()) {
            self.filed(record.place, record.number, record.class());
        }
    }

    /// The last packet of a place is this long one.
    pub(crate) fn keep(&mut self, place: Place, packet: Vec<u8>) {
        let last = match place {
            Place::Replies => self.replies.back_mut().map(|reply| &mut reply.long),
            _ => self.events.back_mut(),
        };
        *last.expect("it is listed") = Some(packet);
        self.kept += 1;
    }

    /// The oldest reply or error of a number was handed out: its bytes, where it is long.
    #[cold]
    pub(crate) fn reply(&mut self, number: SequenceNumber) -> Long {
        let reply = self.oldest(number)?;
        self.leave(reply.long)
    }

    /// The oldest error of a number became an event.
    #[cold]
    pub(crate) fn became_event(&mut self, number: SequenceNumber) {
        if let Some(error) = self.oldest(number) {
            self.events.push_back(error.long);
        }
    }

    /// The oldest event was handed out: its bytes, where it is long.
    #[cold]
    pub(crate) fn event(&mut self) -> Long {
        let long = self.events.pop_front()?;
        self.leave(long)
    }

    /// The answers to a request were discarded: errors became events, or went with the replies.
    #[cold]
    pub(crate) fn discarded(&mut self, number: SequenceNumber, mode: DiscardMode) {
        while let Some(reply) = self.oldest(number) {
            match (reply.class, mode) {
                (PacketClass::Error, DiscardMode::DiscardReply) => {
                    self.events.push_back(reply.long)
                }
                _ => drop(self.leave(reply.long)),
            }
        }
    }

    /// The bytes of a reply or of an event, counted from the oldest, where it is long.
    pub(crate) fn long(&self, place: Place, at: usize) -> Option<&[u8]> {
        match place {
            Place::Replies => self.replies.get(at)?.long.as_deref(),
            _ => self.events.get(at)?.as_deref(),
        }
    }

    /// Whether the lists go with these records.
    pub(crate) fn fit<'a>(&self, records: impl Iterator<Item = Record<'a>>) -> bool {
        let (replies, events): (Vec<_>, Vec<_>) = records.partition(|r| r.place == Place::Replies);
        let numbers = self.replies.iter().map(|reply| reply.number);
        self.events.len() == events.len() && numbers.eq(replies.iter().map(|r| r.number))
    }

    fn oldest(&mut self, number: SequenceNumber) -> Option<Reply> {
        let at = self.replies.iter().position(|r| r.number == number)?;
        self.replies.remove(at)
    }

    /// What was taken off a list; with the last long packet both lists go.
    fn leave(&mut self, long: Long) -> Long {
        self.kept -= usize::from(long.is_some());
        if self.kept == 0 {
            *self = Rests::default();
        }
        long
    }
}
