//! What the rooms of a connection hold.

use super::answer;
use crate::errors::Refusal;
use crate::exports::*;

#[inline]
pub(crate) fn request_at(requests: &[u8], number: u64) -> Result<(u8, u8), Refusal> {
    let (mut descriptors, mut mode) = (0, 0);
    // SAFETY: whole slices and numbers of their own.
    answer(unsafe {
        xm_request_at(
            requests.as_ptr(),
            requests.len(),
            number,
            &mut descriptors,
            &mut mode,
        )
    })?;
    Ok((descriptors, mode))
}

#[inline]
pub(crate) fn record_at(
    store: &[u8],
    at: usize,
    end: usize,
) -> Result<(u8, u64, usize, u8), Refusal> {
    let (mut kind, mut number, mut size, mut count) = (0, 0, 0, 0);
    // SAFETY: whole slices and numbers of their own.
    answer(unsafe {
        xm_record_at(
            store.as_ptr(),
            store.len(),
            at,
            end,
            &mut kind,
            &mut number,
            &mut size,
            &mut count,
        )
    })?;
    Ok((kind, number, size, count))
}
