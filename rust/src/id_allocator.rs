//! Ids for the client's resources.
//!
//! ```
//! use xiengmado::id_allocator::IdAllocator;
//! use xiengmado::protocol::xc_misc::GetXIDRangeReply;
//!
//! // The base and the mask are the setup's.
//! let mut ids = IdAllocator::new(0x20_0000, 0b11).unwrap();
//! assert_eq!(ids.generate_id(), Some(0x20_0000));
//! assert!((0..3).all(|_| ids.generate_id().is_some()));
//!
//! // None is left: XC-MISC gives a range of further ones.
//! assert_eq!(ids.generate_id(), None);
//! let range = GetXIDRangeReply { start_id: 0x20_0001, count: 2, ..Default::default() };
//! ids.update_xid_range(&range).unwrap();
//! assert_eq!(ids.generate_id(), Some(0x20_0001));
//! ```

use std::error::Error;
use std::fmt;

use crate::errors::{ConnectError, Refusal};
use crate::ffi;
use crate::protocol::xc_misc::GetXIDRangeReply;

/// An allocator for X11 ids.
#[derive(Debug, Clone, Copy)]
pub struct IdAllocator {
    pub(crate) state: [u64; ffi::SLOTS],
}

impl IdAllocator {
    /// An allocator for the `resource_id_base` and `resource_id_mask` of a setup.
    #[inline]
    pub fn new(id_base: u32, id_mask: u32) -> Result<Self, ConnectError> {
        let mut state = [0; ffi::SLOTS];
        match ffi::ids_new(&mut state, id_base, id_mask) {
            Ok(()) => Ok(IdAllocator { state }),
            Err(_) => Err(ConnectError::ZeroIdMask),
        }
    }

    /// Go on with the ids of a `GetXIDRangeReply`. Panics for a range that passes 2^32 - 1.
    #[inline]
    pub fn update_xid_range(&mut self, xidrange: &GetXIDRangeReply) -> Result<(), IdsExhausted> {
        match self.try_update_xid_range(xidrange) {
            Ok(()) => Ok(()),
            Err(Refusal::IdsExhausted) => Err(IdsExhausted),
            Err(refusal) => panic!("update_xid_range: {refusal}"),
        }
    }

    /// The same. Refused by 11, 12.
    #[inline]
    pub fn try_update_xid_range(&mut self, xidrange: &GetXIDRangeReply) -> Result<(), Refusal> {
        ffi::ids_update_xid_range(&mut self.state, xidrange.start_id, xidrange.count)
    }

    /// The next id.
    #[inline]
    pub fn generate_id(&mut self) -> Option<u32> {
        ffi::ids_generate_id(&mut self.state).ok()
    }

    /// The next id, the last and the step.
    pub fn numbers(&self) -> (u64, u64, u64) {
        (
            self.state[ffi::IDS_NEXT],
            self.state[ffi::IDS_LAST],
            self.state[ffi::IDS_STEP],
        )
    }
}

/// The ids have been exhausted.
#[derive(Debug, Copy, Clone, PartialEq, Eq)]
pub struct IdsExhausted;

impl fmt::Display for IdsExhausted {
    fn fmt(&self, f: &mut fmt::Formatter<'_>) -> fmt::Result {
        Refusal::IdsExhausted.fmt(f)
    }
}

impl Error for IdsExhausted {}

#[cfg(test)]
mod test {
    use super::*;

    fn range(start_id: u32, count: u32) -> GetXIDRangeReply {
        GetXIDRangeReply {
            start_id,
            count,
            ..Default::default()
        }
    }

    #[test]
    fn from_a_mask() {
        let mut ids = IdAllocator::new(0x100, 6).unwrap();
        let all: Vec<_> = std::iter::from_fn(|| ids.generate_id()).collect();
        assert_eq!(all, [0x100, 0x102, 0x104, 0x106]);
        assert!(matches!(
            IdAllocator::new(1, 0),
            Err(ConnectError::ZeroIdMask)
        ));
    }

    #[test]
    fn from_a_range() {
        let mut ids = IdAllocator::new(0, 1).unwrap();
        assert_eq!(ids.update_xid_range(&range(0, 1)), Err(IdsExhausted));
        assert_eq!(ids.update_xid_range(&range(5, 0)), Err(IdsExhausted));
        assert_eq!(
            ids.try_update_xid_range(&range(u32::MAX, 2)),
            Err(Refusal::BadRange)
        );
        ids.update_xid_range(&range(u32::MAX, 1)).unwrap();
        assert_eq!(ids.generate_id(), Some(u32::MAX));
        assert_eq!(ids.generate_id(), None);
    }
}
