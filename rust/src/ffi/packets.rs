//! Packets.

use super::{answer, class};
use crate::errors::Refusal;
use crate::exports::*;
use crate::packet_class::PacketClass;

#[inline]
pub(crate) fn packet_length(code: u8, field: u32) -> (usize, PacketClass) {
    let mut packet_class = 0;
    // SAFETY: a number of its own.
    let length = unsafe { xm_packet_length(code, field, &mut packet_class) };
    (length, class(packet_class))
}

#[inline]
pub(crate) fn check_packet(order: u8, packet: &[u8], first: u8) -> Result<(), Refusal> {
    // SAFETY: whole slices and numbers of their own.
    answer(unsafe { xm_check_packet(order, packet.as_ptr(), packet.len(), first) })
}

#[inline]
pub(crate) fn error(order: u8, packet: &[u8]) -> Result<(u8, u16, u32, u16, u8), Refusal> {
    let (mut code, mut sequence, mut value, mut minor, mut major) = (0, 0, 0, 0, 0);
    // SAFETY: whole slices and numbers of their own.
    answer(unsafe {
        xm_error(
            order,
            packet.as_ptr(),
            packet.len(),
            &mut code,
            &mut sequence,
            &mut value,
            &mut minor,
            &mut major,
        )
    })?;
    Ok((code, sequence, value, minor, major))
}
