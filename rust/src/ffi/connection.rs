//! The connection.

use super::{answer, class, Rooms};
use crate::errors::Refusal;
use crate::exports::*;
use crate::packet_class::PacketClass;

/// An export with the state, the three rooms, and whatever else it takes.
macro_rules! call {
    ($export:ident($state:expr, $rooms:expr $(, $more:expr)*)) => {
        // SAFETY: whole slices and numbers of their own.
        answer(unsafe {
            $export(
                $state.as_mut_ptr(),
                $state.len(),
                $rooms.requests.as_mut_ptr(),
                $rooms.requests.len(),
                $rooms.store.as_mut_ptr(),
                $rooms.store.len(),
                $rooms.slots.as_mut_ptr(),
                $rooms.slots.len(),
                $($more),*
            )
        })
    };
}

#[inline]
pub(crate) fn connection_new(state: &mut [u64], order: u8, rooms: &Rooms) -> Result<(), Refusal> {
    // SAFETY: whole slices and numbers of their own.
    answer(unsafe {
        xm_connection_new(
            state.as_mut_ptr(),
            state.len(),
            order,
            rooms.requests.as_ptr(),
            rooms.requests.len(),
            rooms.store.as_ptr(),
            rooms.store.len(),
            rooms.slots.as_ptr(),
            rooms.slots.len(),
        )
    })
}

#[inline]
pub(crate) fn send_request(state: &mut [u64], rooms: &mut Rooms, kind: u8) -> Result<u64, Refusal> {
    let mut number = 0;
    call!(xm_send_request(state, rooms, kind, &mut number))?;
    Ok(number)
}

pub(crate) fn send_requests(
    state: &mut [u64],
    rooms: &mut Rooms,
    kinds: &[u8],
) -> Result<(usize, u64, u32), Refusal> {
    let (mut count, mut number, mut stop) = (0, 0, 0);
    call!(xm_send_requests(
        state,
        rooms,
        kinds.as_ptr(),
        kinds.len(),
        &mut count,
        &mut number,
        &mut stop
    ))?;
    Ok((count, number, stop))
}

#[inline]
pub(crate) fn discard_reply(
    state: &mut [u64],
    rooms: &mut Rooms,
    number: u64,
    mode: u8,
) -> Result<(), Refusal> {
    call!(xm_discard_reply(state, rooms, number, mode))
}

#[inline]
pub(crate) fn enqueue_fds(
    state: &mut [u64],
    rooms: &mut Rooms,
    list: &[u32],
) -> Result<(), Refusal> {
    call!(xm_enqueue_fds(state, rooms, list.as_ptr(), list.len()))
}

#[inline]
pub(crate) fn enqueue_packet(
    state: &mut [u64],
    rooms: &mut Rooms,
    packet: &[u8],
) -> Result<(u8, u64, PacketClass), Refusal> {
    let (mut place, mut number, mut packet_class) = (0, 0, 0);
    call!(xm_enqueue_packet(
        state,
        rooms,
        packet.as_ptr(),
        packet.len(),
        &mut place,
        &mut number,
        &mut packet_class
    ))?;
    Ok((place, number, class(packet_class)))
}

pub(crate) fn enqueue_packets(
    state: &mut [u64],
    rooms: &mut Rooms,
    bytes: &[u8],
) -> Result<(usize, usize, u32), Refusal> {
    let (mut size, mut count, mut stop) = (0, 0, 0);
    call!(xm_enqueue_packets(
        state,
        rooms,
        bytes.as_ptr(),
        bytes.len(),
        &mut size,
        &mut count,
        &mut stop
    ))?;
    Ok((size, count, stop))
}

pub(crate) fn poll_for_reply_or_error(
    state: &mut [u64],
    rooms: &mut Rooms,
    number: u64,
    out: &mut [u8],
    fds: &mut [u32],
) -> Result<(u8, usize, usize, PacketClass), Refusal> {
    let (mut found, mut size, mut count, mut packet_class) = (0, 0, 0, 0);
    call!(xm_poll_for_reply_or_error(
        state,
        rooms,
        number,
        out.as_mut_ptr(),
        out.len(),
        fds.as_mut_ptr(),
        fds.len(),
        &mut found,
        &mut size,
        &mut count,
        &mut packet_class
    ))?;
    Ok((found, size, count, class(packet_class)))
}

#[inline]
pub(crate) fn prepare_check_for_reply_or_error(
    state: &[u64],
    rooms: &Rooms,
    number: u64,
) -> Result<u8, Refusal> {
    let mut sync = 0;
    // SAFETY: whole slices and numbers of their own.
    answer(unsafe {
        xm_prepare_check_for_reply_or_error(
            state.as_ptr(),
            state.len(),
            rooms.requests.as_ptr(),
            rooms.requests.len(),
            rooms.store.as_ptr(),
            rooms.store.len(),
            rooms.slots.as_ptr(),
            rooms.slots.len(),
            number,
            &mut sync,
        )
    })?;
    Ok(sync)
}

/// A poll that says TryAgain, NoReply, or how many bytes of a reply are in the output, and its class.
macro_rules! poll {
    ($name:ident, $export:ident) => {
        #[inline]
        pub(crate) fn $name(
            state: &mut [u64],
            rooms: &mut Rooms,
            number: u64,
            out: &mut [u8],
        ) -> Result<(u8, usize, PacketClass), Refusal> {
            let (mut result, mut size, mut packet_class) = (0, 0, 0);
            call!($export(
                state,
                rooms,
                number,
                out.as_mut_ptr(),
                out.len(),
                &mut result,
                &mut size,
                &mut packet_class
            ))?;
            Ok((result, size, class(packet_class)))
        }
    };
}

poll!(
    poll_check_for_reply_or_error,
    xm_poll_check_for_reply_or_error
);
poll!(poll_for_reply, xm_poll_for_reply);

#[inline]
pub(crate) fn poll_for_event_with_sequence(
    state: &mut [u64],
    rooms: &mut Rooms,
    out: &mut [u8],
) -> Result<(u8, u64, usize, PacketClass), Refusal> {
    let (mut found, mut number, mut size, mut packet_class) = (0, 0, 0, 0);
    call!(xm_poll_for_event_with_sequence(
        state,
        rooms,
        out.as_mut_ptr(),
        out.len(),
        &mut found,
        &mut number,
        &mut size,
        &mut packet_class
    ))?;
    Ok((found, number, size, class(packet_class)))
}

pub(crate) fn poll_for_events(
    state: &mut [u64],
    rooms: &mut Rooms,
    out: &mut [u8],
    marks: &mut [u64],
) -> Result<(usize, usize, u32), Refusal> {
    let (mut count, mut size, mut stop) = (0, 0, 0);
    call!(xm_poll_for_events(
        state,
        rooms,
        out.as_mut_ptr(),
        out.len(),
        marks.as_mut_ptr(),
        marks.len(),
        &mut count,
        &mut size,
        &mut stop
    ))?;
    Ok((count, size, stop))
}

#[inline]
pub(crate) fn take_closed_fds(
    state: &mut [u64],
    rooms: &mut Rooms,
    out: &mut [u32],
) -> Result<usize, Refusal> {
    let mut count = 0;
    call!(xm_take_closed_fds(
        state,
        rooms,
        out.as_mut_ptr(),
        out.len(),
        &mut count
    ))?;
    Ok(count)
}
