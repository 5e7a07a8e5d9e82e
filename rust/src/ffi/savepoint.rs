//! Savepoints.

use super::{answer, Rooms};
use crate::errors::Refusal;
use crate::exports::*;

/// An export with a whole client that is lent to be read, and whatever else it takes.
macro_rules! saves {
    ($export:ident($state:expr, $rooms:expr, $reader:expr, $buf:expr, $ids:expr $(, $more:expr)*)) => {
        // SAFETY: whole slices and numbers of their own.
        answer(unsafe {
            $export(
                $state.as_ptr(),
                $state.len(),
                $rooms.requests.as_ptr(),
                $rooms.requests.len(),
                $rooms.store.as_ptr(),
                $rooms.store.len(),
                $rooms.slots.as_ptr(),
                $rooms.slots.len(),
                $reader.as_ptr(),
                $reader.len(),
                $buf.as_ptr(),
                $buf.len(),
                $ids.as_ptr(),
                $ids.len(),
                $($more),*
            )
        })
    };
}

pub(crate) fn savepoint_length(
    state: &[u64],
    rooms: &Rooms,
    reader: &[u64],
    buf: &[u8],
    ids: &[u64],
) -> Result<usize, Refusal> {
    let mut length = 0;
    saves!(xm_savepoint_length(
        state,
        rooms,
        reader,
        buf,
        ids,
        &mut length
    ))?;
    Ok(length)
}

pub(crate) fn save(
    state: &[u64],
    rooms: &Rooms,
    reader: &[u64],
    buf: &[u8],
    ids: &[u64],
    out: &mut [u8],
) -> Result<usize, Refusal> {
    let mut length = 0;
    saves!(xm_save(
        state,
        rooms,
        reader,
        buf,
        ids,
        out.as_mut_ptr(),
        out.len(),
        &mut length
    ))?;
    Ok(length)
}

pub(crate) fn restore(
    bytes: &[u8],
    state: &mut [u64],
    rooms: &mut Rooms,
    reader: &mut [u64],
    buf: &mut [u8],
    ids: &mut [u64],
) -> Result<(), Refusal> {
    // SAFETY: whole slices of their own.
    answer(unsafe {
        xm_restore(
            bytes.as_ptr(),
            bytes.len(),
            state.as_mut_ptr(),
            state.len(),
            rooms.requests.as_mut_ptr(),
            rooms.requests.len(),
            rooms.store.as_mut_ptr(),
            rooms.store.len(),
            rooms.slots.as_ptr(),
            rooms.slots.len(),
            reader.as_mut_ptr(),
            reader.len(),
            buf.as_mut_ptr(),
            buf.len(),
            ids.as_mut_ptr(),
            ids.len(),
        )
    })
}
