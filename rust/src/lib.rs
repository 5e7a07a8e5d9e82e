//! The API of x11rb-protocol 0.14.0 over the proved engine Xiengmado.
//!
//! [`connection::Connection`], [`packet_reader::PacketReader`], [`connect::Connect`],
//! [`id_allocator::IdAllocator`] and [`protocol::xc_misc`] have the names and arguments of the
//! original, so a program written against it changes its `use` lines and little else. What differs,
//! item by item, is in the project's `docs/DIFFERENCES.md`; in short:
//!
//! - Rooms have a length that is chosen at the start: `new` takes large ones, `with_..` any others.
//! - Where the original grows, panics or asks that the caller behave, the engine refuses by number
//!   ([`Refusal`]) and changes nothing. A call whose signature has no place for that panics; the
//!   `try_` call beside it answers the refusal instead.
//! - A KeymapNotify that SendEvent made (code 139) carries no number, as one of the server's; the original
//!   takes its key bits for one.
//! - A packet whose number is above that of the last request sent is refused ([`Refusal::Ahead`]); the original
//!   takes it in.
//! - What kind of packet it is (error, reply, event, generic event, and whether SendEvent made it) is told as a
//!   [`PacketClass`] by calls that end in `_with_class`, beside those of the original.
//!
//! [`engine::Engine`] is the connection without those habits: every call answers its refusal,
//! descriptors are opaque numbers, and everything that is held can be looked at.
//!
//! [`savepoint`] writes a connection, its reader and its ids to bytes and reads them back, which the
//! original can't do.
//!
//! ```
//! use xiengmado::connection::{Connection, PollReply, ReplyFdKind};
//! use xiengmado::packet_reader::PacketReader;
//!
//! let (mut connection, mut reader) = (Connection::new(), PacketReader::new());
//! // A number for the request, which is then written to the socket.
//! let number = connection.send_request(ReplyFdKind::ReplyWithoutFDs).expect("no sync is due");
//!
//! // What the server answers: a reply (1) to that request.
//! let mut bytes = vec![0; 32];
//! bytes[0] = 1;
//! bytes[2..4].copy_from_slice(&(number as u16).to_ne_bytes());
//!
//! let mut socket = &bytes[..];
//! while let Ok(count @ 1..) = std::io::Read::read(&mut socket, reader.buffer()) {
//!     if let Some(packet) = reader.advance(count) {
//!         connection.enqueue_packet(packet);
//!     }
//! }
//! assert_eq!(connection.poll_for_reply(number), PollReply::Reply(bytes));
//! ```

#![deny(missing_docs)]

pub mod connect;
pub mod connection;
pub mod engine;
pub mod errors;
// For who calls the library as C does; `include/xiengmado.h` says what each export does.
#[doc(hidden)]
pub mod exports;
mod ffi;
pub mod id_allocator;
mod packet_class;
pub mod packet_reader;
pub mod protocol;
mod rests;
pub mod savepoint;
pub mod sequence;
#[cfg(test)]
mod surface;
pub mod x11_utils;

pub use errors::Refusal;
pub use packet_class::PacketClass;

/// The program of README.md is built with the examples.
#[cfg(doctest)]
#[doc = include_str!("../README.md")]
struct Readme;

/// A descriptor that is closed when it is dropped.
pub type RawFdContainer = std::os::fd::OwnedFd;

/// A combination of a buffer and a list of file descriptors.
pub type BufWithFds<B> = (B, Vec<RawFdContainer>);

/// A request's number, counted from one without a wrap.
pub type SequenceNumber = u64;

/// The raw bytes of an event and its sequence number.
pub type RawEventAndSeqNumber<B> = (B, SequenceNumber);

/// Which responses to a request should be discarded.
#[derive(Debug, Copy, Clone, PartialEq, Eq)]
pub enum DiscardMode {
    /// The reply goes; an error becomes an event.
    DiscardReply,
    /// The reply goes, and so does an error.
    DiscardReplyAndError,
}

/// The byte order that a client chose when it connected.
#[derive(Debug, Copy, Clone, PartialEq, Eq)]
pub enum ByteOrder {
    /// `l`, the least significant byte first.
    Little,
    /// `B`, the most significant byte first.
    Big,
}

impl ByteOrder {
    /// The order of this machine.
    pub const NATIVE: ByteOrder = if cfg!(target_endian = "little") {
        ByteOrder::Little
    } else {
        ByteOrder::Big
    };

    pub(crate) fn byte(self) -> u8 {
        match self {
            ByteOrder::Little => b'l',
            ByteOrder::Big => b'B',
        }
    }
}

/// The version of the archive that this is linked with: 65,536 for each major, 256 for each minor, 1
/// for each patch. It is that of this crate.
pub fn version() -> u32 {
    ffi::version()
}

#[cfg(test)]
mod tests {
    #[test]
    fn archive_and_crate_have_one_version() {
        let parts = env!("CARGO_PKG_VERSION").split('.');
        let number = parts.fold(0, |n, part| 256 * n + part.parse::<u32>().unwrap());
        assert_eq!(super::version(), number);
    }
}
