//! XC-MISC.

use super::answer;
use crate::errors::Refusal;
use crate::exports::*;

#[inline]
pub(crate) fn xc_misc_get_version_request(
    order: u8,
    opcode: u8,
    major: u16,
    minor: u16,
    out: &mut [u8],
) -> Result<usize, Refusal> {
    let mut size = 0;
    // SAFETY: whole slices and numbers of their own.
    answer(unsafe {
        xm_xc_misc_get_version_request(
            order,
            opcode,
            major,
            minor,
            out.as_mut_ptr(),
            out.len(),
            &mut size,
        )
    })?;
    Ok(size)
}

#[inline]
pub(crate) fn xc_misc_get_xid_range_request(
    order: u8,
    opcode: u8,
    out: &mut [u8],
) -> Result<usize, Refusal> {
    let mut size = 0;
    // SAFETY: whole slices and numbers of their own.
    answer(unsafe {
        xm_xc_misc_get_xid_range_request(order, opcode, out.as_mut_ptr(), out.len(), &mut size)
    })?;
    Ok(size)
}

#[inline]
pub(crate) fn xc_misc_get_xid_list_request(
    order: u8,
    opcode: u8,
    count: u32,
    out: &mut [u8],
) -> Result<usize, Refusal> {
    let mut size = 0;
    // SAFETY: whole slices and numbers of their own.
    answer(unsafe {
        xm_xc_misc_get_xid_list_request(
            order,
            opcode,
            count,
            out.as_mut_ptr(),
            out.len(),
            &mut size,
        )
    })?;
    Ok(size)
}

#[inline]
pub(crate) fn xc_misc_get_version_reply(
    order: u8,
    packet: &[u8],
) -> Result<(u16, u32, u16, u16), Refusal> {
    let (mut sequence, mut length, mut major, mut minor) = (0, 0, 0, 0);
    // SAFETY: whole slices and numbers of their own.
    answer(unsafe {
        xm_xc_misc_get_version_reply(
            order,
            packet.as_ptr(),
            packet.len(),
            &mut sequence,
            &mut length,
            &mut major,
            &mut minor,
        )
    })?;
    Ok((sequence, length, major, minor))
}

#[inline]
pub(crate) fn xc_misc_get_xid_range_reply(
    order: u8,
    packet: &[u8],
) -> Result<(u16, u32, u32, u32), Refusal> {
    let (mut sequence, mut length, mut start, mut count) = (0, 0, 0, 0);
    // SAFETY: whole slices and numbers of their own.
    answer(unsafe {
        xm_xc_misc_get_xid_range_reply(
            order,
            packet.as_ptr(),
            packet.len(),
            &mut sequence,
            &mut length,
            &mut start,
            &mut count,
        )
    })?;
    Ok((sequence, length, start, count))
}

#[inline]
pub(crate) fn xc_misc_get_xid_list_reply(
    order: u8,
    packet: &[u8],
    ids: &mut [u32],
) -> Result<(u16, u32, u32), Refusal> {
    let (mut sequence, mut length, mut count) = (0, 0, 0);
    // SAFETY: whole slices and numbers of their own.
    answer(unsafe {
        xm_xc_misc_get_xid_list_reply(
            order,
            packet.as_ptr(),
            packet.len(),
            ids.as_mut_ptr(),
            ids.len(),
            &mut sequence,
            &mut length,
            &mut count,
        )
    })?;
    Ok((sequence, length, count))
}
