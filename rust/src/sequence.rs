//! Sequence numbers alone, for those who keep the three numbers of a connection themselves.
//!
//! ```
//! use xiengmado::{sequence, Refusal};
//!
//! // 70,000 was read last: a packet that bears 4,470 is the answer to 70,006.
//! assert_eq!(sequence::full_number(70_000, 4_470), Ok(70_006));
//!
//! // After 65,534 requests without a reply, one with a reply comes first.
//! assert_eq!(sequence::send(65_534, 0, false), Err(Refusal::SyncFirst));
//! assert_eq!(sequence::send(65_534, 0, true), Ok((65_535, 65_535)));
//! ```

use crate::errors::Refusal;
use crate::{ffi, SequenceNumber};

/// The full number of a packet: the least at or above the last read whose low 16 bits are the wire's.
/// Refused by 3.
pub fn full_number(read: SequenceNumber, wire: u16) -> Result<SequenceNumber, Refusal> {
    ffi::full_number(read, wire)
}

/// The number of the next request, and the next reply expected after it. Refused by 3, 6.
pub fn send(
    written: SequenceNumber,
    expected: SequenceNumber,
    has_reply: bool,
) -> Result<(SequenceNumber, SequenceNumber), Refusal> {
    ffi::send(written, expected, has_reply)
}

#[cfg(test)]
mod test {
    use super::*;

    #[test]
    fn numbers() {
        assert_eq!(full_number(65_535, 0), Ok(65_536));
        assert_eq!(full_number(70_000, 4464), Ok(70_000));
        assert_eq!(full_number(70_000, 4463), Ok(135_535));
        assert_eq!(full_number((1 << 63) - 1, 0), Err(Refusal::NumberEnd));
        assert_eq!(send(65_534, 0, false), Err(Refusal::SyncFirst));
        assert_eq!(send(65_534, 0, true), Ok((65_535, 65_535)));
    }
}
