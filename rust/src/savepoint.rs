//! Savepoints: a connection, its packet reader and its ids written to bytes and read back. What was
//! restored answers everything from there on as what was saved would have.
//!
//! `docs/SAVEPOINT.md` has the format. Equal states have equal bytes, wherever things lie in their
//! rooms, so two clients are compared by comparing their savepoints.
//!
//! ```
//! use xiengmado::connection::{Connection, ReplyFdKind};
//! use xiengmado::id_allocator::IdAllocator;
//! use xiengmado::packet_reader::PacketReader;
//! use xiengmado::savepoint;
//!
//! let (mut connection, reader) = (Connection::new(), PacketReader::new());
//! let ids = IdAllocator::new(0x20_0000, 0x1f_ffff).unwrap();
//! connection.send_request(ReplyFdKind::ReplyWithoutFDs);
//!
//! let bytes = savepoint::save(&connection, &reader, &ids).expect("no descriptor is inside");
//! let (mut other, reader, ids) = savepoint::restore(&bytes).expect("a savepoint");
//! assert_eq!(savepoint::save(&other, &reader, &ids).unwrap(), bytes);
//! assert_eq!(other.send_request(ReplyFdKind::NoReply), Some(2));
//! ```

use std::error::Error;
use std::fmt;
use std::ops::RangeInclusive;

use crate::connection::Connection;
use crate::engine::Engine;
use crate::errors::Refusal;
use crate::ffi;
use crate::id_allocator::IdAllocator;
use crate::packet_reader::PacketReader;
use crate::rests::Rests;

/// Why a client can't be saved.
#[derive(Debug, Clone, Copy, PartialEq, Eq)]
#[non_exhaustive]
pub enum SaveError {
    /// The engine refused, by 18 or 8.
    Refused(Refusal),
    /// A packet over 65,536 bytes is held, or the reader gathers one that is longer than its buffer. Bytes
    /// beside the engine are no part of its state. Take the packet or discard it, or read to its end, and
    /// save then.
    LongPacket,
}

impl fmt::Display for SaveError {
    fn fmt(&self, f: &mut fmt::Formatter<'_>) -> fmt::Result {
        match self {
            SaveError::Refused(refusal) => refusal.fmt(f),
            SaveError::LongPacket => {
                write!(
                    f,
                    "Bytes of a long packet are kept beside the engine, and can't be saved"
                )
            }
        }
    }
}

impl Error for SaveError {}

impl From<Refusal> for SaveError {
    fn from(refusal: Refusal) -> Self {
        SaveError::Refused(refusal)
    }
}

/// The savepoint of a client. Refused by 18 while the connection has a descriptor inside; an error of its own
/// while bytes of a long packet are kept beside the engine.
pub fn save(
    connection: &Connection,
    reader: &PacketReader,
    ids: &IdAllocator,
) -> Result<Vec<u8>, SaveError> {
    connection.engine.save(reader, ids)
}

/// The client of a savepoint, in rooms of the lengths that were saved. Refused by 19.
pub fn restore(bytes: &[u8]) -> Result<(Connection, PacketReader, IdAllocator), Refusal> {
    let (engine, reader, ids) = Engine::restore(bytes)?;
    Ok((Connection { engine }, reader, ids))
}

/// Where a savepoint has the lengths of its rooms, and how long they may be: requests, store and the
/// reader's buffer.
const REQUESTS: (usize, RangeInclusive<u64>) = (40, 1..=65_536);
const STORE: (usize, RangeInclusive<u64>) = (48, 48..=16_777_216);
const BUFFER: (usize, RangeInclusive<u64>) = (64, 32..=65_536);

/// A length that a savepoint has at a place. Refused by 19, as the whole would be.
fn length(bytes: &[u8], (at, range): (usize, RangeInclusive<u64>)) -> Result<usize, Refusal> {
    let field = bytes.get(at..at + 8).ok_or(Refusal::BadSavepoint)?;
    let length = u64::from_le_bytes(field.try_into().expect("8 bytes"));
    match range.contains(&length) {
        true => Ok(length as usize),
        false => Err(Refusal::BadSavepoint),
    }
}

impl Engine {
    /// Nothing is kept beside the engine and beside the reader's buffer.
    fn all_inside(&self, reader: &PacketReader) -> Result<(), SaveError> {
        match self.rests.is_empty() && !reader.is_gathering() {
            true => Ok(()),
            false => Err(SaveError::LongPacket),
        }
    }

    /// How many bytes a savepoint takes. Refused by 18.
    pub fn savepoint_length(
        &self,
        reader: &PacketReader,
        ids: &IdAllocator,
    ) -> Result<usize, SaveError> {
        self.all_inside(reader)?;
        Ok(ffi::savepoint_length(
            &self.state,
            &self.rooms,
            &reader.state,
            &reader.buffer,
            &ids.state,
        )?)
    }

    /// The savepoint of this connection with its reader and its ids. Refused by 18.
    pub fn save(&self, reader: &PacketReader, ids: &IdAllocator) -> Result<Vec<u8>, SaveError> {
        let mut out = vec![0; self.savepoint_length(reader, ids)?];
        self.save_into(reader, ids, &mut out)?;
        Ok(out)
    }

    /// The same at the start of an output: how many bytes. Refused by 18, 8.
    pub fn save_into(
        &self,
        reader: &PacketReader,
        ids: &IdAllocator,
        out: &mut [u8],
    ) -> Result<usize, SaveError> {
        self.all_inside(reader)?;
        Ok(ffi::save(
            &self.state,
            &self.rooms,
            &reader.state,
            &reader.buffer,
            &ids.state,
            out,
        )?)
    }

    /// A savepoint read into rooms of the lengths that were saved. Refused by 19.
    pub fn restore(bytes: &[u8]) -> Result<(Engine, PacketReader, IdAllocator), Refusal> {
        let (requests, store) = (length(bytes, REQUESTS)?, length(bytes, STORE)?);
        let mut reader = PacketReader::bare(length(bytes, BUFFER)?);
        let mut engine = Engine::bare(requests, store);
        let mut ids = IdAllocator {
            state: [0; ffi::SLOTS],
        };
        engine.restore_into(bytes, &mut reader, &mut ids)?;
        Ok((engine, reader, ids))
    }

    /// A savepoint read into the rooms that are there; whatever they held is gone. Refused by 19, 9.
    pub fn restore_into(
        &mut self,
        bytes: &[u8],
        reader: &mut PacketReader,
        ids: &mut IdAllocator,
    ) -> Result<(), Refusal> {
        ffi::restore(
            bytes,
            &mut self.state,
            &mut self.rooms,
            &mut reader.state,
            &mut reader.buffer,
            &mut ids.state,
        )?;
        self.rests = Rests::default();
        reader.stop_gathering();
        Ok(())
    }
}
