//! The published files, with what they ask for around them. A descriptor that is dropped says so, since dropping
//! is how the published Rust closes.

#![allow(dead_code)]

use std::cell::RefCell;

pub use crate::names::*;
pub use published::published;

pub mod utils {
    use super::*;

    thread_local! {
        static CLOSED: RefCell<Vec<u32>> = const { RefCell::new(Vec::new()) };
    }

    #[derive(Debug)]
    pub struct RawFdContainer(pub u32);

    impl Drop for RawFdContainer {
        fn drop(&mut self) {
            CLOSED.with(|closed| closed.borrow_mut().push(self.0));
        }
    }

    /// What was closed since the last call of this function, in its order.
    pub fn take_closed() -> Vec<u32> {
        CLOSED.with(|closed| std::mem::take(&mut *closed.borrow_mut()))
    }

    /// The number of a descriptor that is handed out: not closed.
    pub fn number(fd: RawFdContainer) -> u32 {
        let number = fd.0;
        std::mem::forget(fd);
        number
    }
}

// ---- the published files, each with a function beside it that looks at private fields

pub mod errors {
    crate::published!("errors.rs");
}

pub mod packet_reader {
    crate::published!("packet_reader.rs");

    /// The bytes read so far, and how many there will be.
    pub fn view(reader: &PacketReader) -> (&[u8], usize) {
        let read = &reader.pending_packet[..reader.already_read];
        (read, reader.pending_packet.len())
    }
}

pub mod connect {
    crate::published!("connect.rs");

    /// The bytes read so far, and how many there will be.
    pub fn view(connect: &Connect) -> (&[u8], usize) {
        (&connect.buffer[..connect.advanced], connect.buffer.len())
    }
}

pub mod id_allocator {
    crate::published!("id_allocator.rs");

    /// The next id, the last and the step.
    pub fn view(ids: &IdAllocator) -> (u64, u64, u64) {
        (ids.next_id.into(), ids.max_id.into(), ids.increment.into())
    }
}

pub mod connection {
    crate::published!("connection/mod.rs");

    use xiengmado::engine::{Place, Request};

    /// The last number written, the next reply expected, the last number read.
    pub fn numbers(c: &Connection) -> (u64, u64, u64) {
        (
            c.last_sequence_written,
            c.next_reply_expected,
            c.last_sequence_read,
        )
    }

    /// The outstanding requests.
    pub fn outstanding(c: &Connection) -> impl ExactSizeIterator<Item = Request> + '_ {
        c.sent_requests.iter().map(|request| Request {
            number: request.seqno,
            has_fds: request.has_fds,
            discard_mode: request.discard_mode.map(|mode| match mode {
                DiscardMode::DiscardReply => xiengmado::DiscardMode::DiscardReply,
                DiscardMode::DiscardReplyAndError => xiengmado::DiscardMode::DiscardReplyAndError,
            }),
        })
    }

    /// The held packets of a kind: number, bytes, descriptors.
    pub fn held(c: &Connection, place: Place) -> Vec<(u64, &[u8], Vec<u32>)> {
        match place {
            Place::Replies => c
                .pending_replies
                .iter()
                .map(|(n, (packet, fds))| (*n, &packet[..], fds.iter().map(|fd| fd.0).collect()))
                .collect(),
            _ => c
                .pending_events
                .iter()
                .map(|(n, packet)| (*n, &packet[..], Vec::new()))
                .collect(),
        }
    }

    /// The descriptors that wait.
    pub fn waiting(c: &Connection) -> impl Iterator<Item = u32> + '_ {
        c.pending_fds.iter().map(|fd| fd.0)
    }

    /// A connection after so many requests, of which the last had a reply that came and was taken.
    pub fn after(number: u64) -> Connection {
        let mut c = Connection::new();
        c.last_sequence_written = number;
        c.next_reply_expected = number;
        c.last_sequence_read = number;
        c.sent_requests.push_back(SentRequest {
            seqno: number,
            discard_mode: None,
            has_fds: false,
        });
        c
    }

    /// Closes everything that is inside, as dropping the connection does.
    pub fn finish(c: Connection) {
        drop(c);
    }
}
