//! Sequence numbers.

use super::answer;
use crate::errors::Refusal;
use crate::exports::*;

#[inline]
pub(crate) fn full_number(read: u64, wire: u16) -> Result<u64, Refusal> {
    let mut number = 0;
    // SAFETY: whole slices and numbers of their own.
    answer(unsafe { xm_full_number(read, wire, &mut number) })?;
    Ok(number)
}

#[inline]
pub(crate) fn send(written: u64, expected: u64, reply: bool) -> Result<(u64, u64), Refusal> {
    let (mut number, mut next) = (0, 0);
    // SAFETY: whole slices and numbers of their own.
    answer(unsafe { xm_send(written, expected, reply, &mut number, &mut next) })?;
    Ok((number, next))
}
