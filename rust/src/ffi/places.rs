//! Lengths of rows and rooms, and where the numbers of a row stand.

/// How many numbers a state has, how many slots there are for descriptors, and fields of a setup.
pub(crate) const CONNECTION_SLOTS: usize = 16;
pub(crate) const SLOTS: usize = 3;
pub(crate) const DESCRIPTORS: usize = 256;
pub(crate) const SETUP_FIELDS: usize = 17;

/// Of a connection: the last number written, the next reply expected, the last number read, the first
/// outstanding number, where the held records start and end in the store, and how many descriptors are to
/// be closed, held and waiting.
pub(crate) const STATE_WRITTEN: usize = 3;
pub(crate) const STATE_EXPECTED: usize = 4;
pub(crate) const STATE_READ: usize = 5;
pub(crate) const STATE_FIRST: usize = 6;
pub(crate) const STATE_START: usize = 7;
pub(crate) const STATE_END: usize = 8;
pub(crate) const STATE_CLOSED: usize = 9;
pub(crate) const STATE_HELD: usize = 10;
pub(crate) const STATE_WAITING: usize = 11;

/// Of a reader and of a handshake.
pub(crate) const READER_ORDER: usize = 0;
pub(crate) const READER_FILLED: usize = 1;
pub(crate) const READER_TARGET: usize = 2;

/// Of an allocator.
pub(crate) const IDS_NEXT: usize = 0;
pub(crate) const IDS_LAST: usize = 1;
pub(crate) const IDS_STEP: usize = 2;

/// Of what a setup reply says.
pub(crate) const SETUP_MAJOR: usize = 0;
pub(crate) const SETUP_MINOR: usize = 1;
pub(crate) const SETUP_LENGTH: usize = 2;
pub(crate) const SETUP_RELEASE: usize = 3;
pub(crate) const SETUP_BASE: usize = 4;
pub(crate) const SETUP_MASK: usize = 5;
pub(crate) const SETUP_MOTION: usize = 6;
pub(crate) const SETUP_REQUEST: usize = 8;
pub(crate) const SETUP_ROOTS: usize = 9;
pub(crate) const SETUP_FORMATS: usize = 10;
pub(crate) const SETUP_IMAGE: usize = 11;
pub(crate) const SETUP_BITMAP: usize = 12;
pub(crate) const SETUP_UNIT: usize = 13;
pub(crate) const SETUP_PAD: usize = 14;
pub(crate) const SETUP_FIRST: usize = 15;
pub(crate) const SETUP_LAST: usize = 16;
