//! The packet reader.

use super::{answer, class, part};
use crate::errors::Refusal;
use crate::exports::*;
use crate::packet_class::PacketClass;

#[inline]
pub(crate) fn reader_new(reader: &mut [u64], order: u8, buf: &[u8]) -> Result<(), Refusal> {
    // SAFETY: whole slices and numbers of their own.
    answer(unsafe {
        xm_reader_new(
            reader.as_mut_ptr(),
            reader.len(),
            order,
            buf.as_ptr(),
            buf.len(),
        )
    })
}

#[inline]
pub(crate) fn reader_remaining_capacity(reader: &[u64], buf: &[u8]) -> Result<usize, Refusal> {
    let mut size = 0;
    // SAFETY: whole slices and numbers of their own.
    answer(unsafe {
        xm_reader_remaining_capacity(
            reader.as_ptr(),
            reader.len(),
            buf.as_ptr(),
            buf.len(),
            &mut size,
        )
    })?;
    Ok(size)
}

#[inline]
pub(crate) fn reader_buffer(reader: &[u64], buf: &[u8]) -> Result<(usize, usize), Refusal> {
    part(xm_reader_buffer, reader, buf)
}

#[inline]
pub(crate) fn reader_advance(
    reader: &mut [u64],
    buf: &[u8],
    amount: usize,
) -> Result<(usize, PacketClass), Refusal> {
    let (mut size, mut packet_class) = (0, 0);
    // SAFETY: whole slices and numbers of their own.
    answer(unsafe {
        xm_reader_advance(
            reader.as_mut_ptr(),
            reader.len(),
            buf.as_ptr(),
            buf.len(),
            amount,
            &mut size,
            &mut packet_class,
        )
    })?;
    Ok((size, class(packet_class)))
}
