//! Ids.

use super::answer;
use crate::errors::Refusal;
use crate::exports::*;

#[inline]
pub(crate) fn ids_new(ids: &mut [u64], base: u32, mask: u32) -> Result<(), Refusal> {
    // SAFETY: whole slices and numbers of their own.
    answer(unsafe { xm_ids_new(ids.as_mut_ptr(), ids.len(), base, mask) })
}

#[inline]
pub(crate) fn ids_generate_id(ids: &mut [u64]) -> Result<u32, Refusal> {
    let mut id = 0;
    // SAFETY: whole slices and numbers of their own.
    answer(unsafe { xm_ids_generate_id(ids.as_mut_ptr(), ids.len(), &mut id) })?;
    Ok(id)
}

#[inline]
pub(crate) fn ids_update_xid_range(ids: &mut [u64], start: u32, count: u32) -> Result<(), Refusal> {
    // SAFETY: whole slices and numbers of their own.
    answer(unsafe { xm_ids_update_xid_range(ids.as_mut_ptr(), ids.len(), start, count) })
}
