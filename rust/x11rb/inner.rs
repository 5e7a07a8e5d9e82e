//! The inner connection of x11rb 0.8.1 over this engine: takes the place of `rust_connection/inner.rs` in a copy of it.

use std::os::unix::io::{FromRawFd, OwnedFd};

pub(crate) use xiengmado::connection::PollReply;
use xiengmado::connection::{Connection, ReplyFdKind};

use super::{BufWithFds, RawEventAndSeqNumber, ReplyFDKind, WriteBuffer};
use crate::connection::{DiscardMode, SequenceNumber};
use crate::utils::RawFdContainer;

/// Where a send waits for answers: the engine takes 65,536 outstanding requests, and a sync or two must find room.
const MANY: usize = 65_530;

#[derive(Debug)]
pub(crate) struct ConnectionInner {
    connection: Connection,
    pub(super) write_buffer: WriteBuffer,
}

impl ConnectionInner {
    pub(crate) fn new() -> Self {
        ConnectionInner {
            connection: Connection::new(),
            write_buffer: WriteBuffer::new(),
        }
    }

    /// Whether answers must be read before the next request; the original takes any number of requests.
    pub(crate) fn is_full(&self) -> bool {
        self.connection.engine().outstanding_len() >= MANY
    }

    /// Whether a reply is on its way, so that a read comes to an end.
    pub(crate) fn awaits_reply(&self) -> bool {
        let engine = self.connection.engine();
        engine.next_reply_expected() > engine.last_sequence_read()
    }

    pub(crate) fn send_request(&mut self, kind: ReplyFDKind) -> Option<SequenceNumber> {
        self.connection.send_request(match kind {
            ReplyFDKind::NoReply => ReplyFdKind::NoReply,
            ReplyFDKind::ReplyWithoutFDs => ReplyFdKind::ReplyWithoutFDs,
            ReplyFDKind::ReplyWithFDs => ReplyFdKind::ReplyWithFDs,
        })
    }

    pub(crate) fn discard_reply(&mut self, number: SequenceNumber, mode: DiscardMode) {
        use xiengmado::DiscardMode::*;
        let mode = match mode {
            DiscardMode::DiscardReply => DiscardReply,
            DiscardMode::DiscardReplyAndError => DiscardReplyAndError,
        };
        self.connection.discard_reply(number, mode);
    }

    pub(crate) fn enqueue_fds(&mut self, fds: Vec<RawFdContainer>) {
        // SAFETY: the container owned the descriptor and has let go of it.
        let owned = |fd: RawFdContainer| unsafe { OwnedFd::from_raw_fd(fd.into_raw_fd()) };
        self.connection
            .enqueue_fds(fds.into_iter().map(owned).collect());
    }

    pub(crate) fn enqueue_packet(&mut self, packet: Vec<u8>) {
        self.connection.enqueue_packet(packet);
    }

    pub(crate) fn poll_for_reply_or_error(&mut self, number: SequenceNumber) -> Option<BufWithFds> {
        let (packet, fds) = self.connection.poll_for_reply_or_error(number)?;
        Some((packet, fds.into_iter().map(RawFdContainer::from).collect()))
    }

    pub(crate) fn prepare_check_for_reply_or_error(&mut self, number: SequenceNumber) -> bool {
        self.connection.prepare_check_for_reply_or_error(number)
    }

    pub(crate) fn poll_check_for_reply_or_error(&mut self, number: SequenceNumber) -> PollReply {
        self.connection.poll_check_for_reply_or_error(number)
    }

    pub(crate) fn poll_for_reply(&mut self, number: SequenceNumber) -> PollReply {
        self.connection.poll_for_reply(number)
    }

    pub(crate) fn poll_for_event_with_sequence(&mut self) -> Option<RawEventAndSeqNumber> {
        self.connection.poll_for_event_with_sequence()
    }
}
