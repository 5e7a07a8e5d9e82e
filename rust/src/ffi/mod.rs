//! The calls of the static library, made safe, by the sections of `include/xiengmado.h`. The only unsafe code of this
//! crate: each wrapper lends whole slices and numbers that overlap nothing.

mod connection;
mod handshake;
mod ids;
mod packets;
mod places;
mod reader;
mod rooms;
mod savepoint;
mod sequence;
mod xc_misc;

use std::os::fd::{AsRawFd, FromRawFd, OwnedFd, RawFd};

use crate::errors::Refusal;
use crate::packet_class::PacketClass;

pub(crate) use connection::*;
pub(crate) use handshake::*;
pub(crate) use ids::*;
pub(crate) use packets::*;
pub(crate) use places::*;
pub(crate) use reader::*;
pub(crate) use rooms::*;
pub(crate) use savepoint::*;
pub(crate) use sequence::*;
pub(crate) use xc_misc::*;

/// The rooms of a connection.
#[derive(Debug, Clone)]
pub(crate) struct Rooms {
    pub(crate) requests: Box<[u8]>,
    pub(crate) store: Box<[u8]>,
    pub(crate) slots: Box<[u32]>,
}

#[inline]
pub(crate) fn version() -> u32 {
    // SAFETY: nothing is lent.
    unsafe { crate::exports::xm_version() }
}

#[inline(always)]
fn answer(code: u32) -> Result<(), Refusal> {
    if code == 0 {
        return Ok(());
    }
    Err(refusal(code))
}

#[cold]
fn refusal(code: u32) -> Refusal {
    Refusal::from_number(code).expect("the number of a refusal")
}

/// The class that an export hands on. It has no other number than the six, so that no test is left where
/// nobody asks for the class.
#[inline(always)]
fn class(number: u8) -> PacketClass {
    let class = PacketClass::from_number(number.into());
    debug_assert!(class.is_some(), "the number of a class");
    class.unwrap_or(PacketClass::Error)
}

/// An export that says where a part of a buffer stands.
type ShowsPart =
    unsafe extern "C" fn(*const u64, usize, *const u8, usize, &mut usize, &mut usize) -> u32;

/// The start and the size of that part.
#[inline]
fn part(export: ShowsPart, row: &[u64], buf: &[u8]) -> Result<(usize, usize), Refusal> {
    let (mut start, mut size) = (0, 0);
    // SAFETY: whole slices and numbers of their own.
    answer(unsafe {
        export(
            row.as_ptr(),
            row.len(),
            buf.as_ptr(),
            buf.len(),
            &mut start,
            &mut size,
        )
    })?;
    Ok((start, size))
}

/// A descriptor as the engine sees it: an opaque number.
#[inline]
pub(crate) fn number(fd: &OwnedFd) -> u32 {
    fd.as_raw_fd() as u32
}

/// The descriptor of a number that was given to an engine, forgotten by its owner, and has left the
/// engine.
#[inline]
pub(crate) fn from_number(number: u32) -> OwnedFd {
    // SAFETY: it is open and nobody else's: the engine hands each descriptor out once.
    unsafe { OwnedFd::from_raw_fd(number as RawFd) }
}
