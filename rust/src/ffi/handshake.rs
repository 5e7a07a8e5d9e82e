//! The handshake.

use super::{answer, part};
use crate::errors::Refusal;
use crate::exports::*;

#[inline]
pub(crate) fn setup_request(
    order: u8,
    name: &[u8],
    auth: &[u8],
    out: &mut [u8],
) -> Result<usize, Refusal> {
    let mut size = 0;
    // SAFETY: whole slices and numbers of their own.
    answer(unsafe {
        xm_setup_request(
            order,
            name.as_ptr(),
            name.len(),
            auth.as_ptr(),
            auth.len(),
            out.as_mut_ptr(),
            out.len(),
            &mut size,
        )
    })?;
    Ok(size)
}

#[inline]
pub(crate) fn connect_new(connect: &mut [u64], order: u8, buf: &[u8]) -> Result<(), Refusal> {
    // SAFETY: whole slices and numbers of their own.
    answer(unsafe {
        xm_connect_new(
            connect.as_mut_ptr(),
            connect.len(),
            order,
            buf.as_ptr(),
            buf.len(),
        )
    })
}

#[inline]
pub(crate) fn connect_remaining_capacity(connect: &[u64], buf: &[u8]) -> Result<usize, Refusal> {
    let mut size = 0;
    // SAFETY: whole slices and numbers of their own.
    answer(unsafe {
        xm_connect_remaining_capacity(
            connect.as_ptr(),
            connect.len(),
            buf.as_ptr(),
            buf.len(),
            &mut size,
        )
    })?;
    Ok(size)
}

#[inline]
pub(crate) fn connect_buffer(connect: &[u64], buf: &[u8]) -> Result<(usize, usize), Refusal> {
    part(xm_connect_buffer, connect, buf)
}

#[inline]
pub(crate) fn connect_advance(
    connect: &mut [u64],
    buf: &[u8],
    amount: usize,
) -> Result<u8, Refusal> {
    let mut complete = 0;
    // SAFETY: whole slices and numbers of their own.
    answer(unsafe {
        xm_connect_advance(
            connect.as_mut_ptr(),
            connect.len(),
            buf.as_ptr(),
            buf.len(),
            amount,
            &mut complete,
        )
    })?;
    Ok(complete)
}

#[inline]
pub(crate) fn connect_setup(
    connect: &[u64],
    buf: &[u8],
    fields: &mut [u32],
) -> Result<u8, Refusal> {
    let mut status = 0;
    // SAFETY: whole slices and numbers of their own.
    answer(unsafe {
        xm_connect_setup(
            connect.as_ptr(),
            connect.len(),
            buf.as_ptr(),
            buf.len(),
            &mut status,
            fields.as_mut_ptr(),
            fields.len(),
        )
    })?;
    Ok(status)
}

#[inline]
pub(crate) fn connect_vendor(connect: &[u64], buf: &[u8]) -> Result<(usize, usize), Refusal> {
    part(xm_connect_vendor, connect, buf)
}

#[inline]
pub(crate) fn connect_reason(connect: &[u64], buf: &[u8]) -> Result<(usize, usize), Refusal> {
    part(xm_connect_reason, connect, buf)
}
