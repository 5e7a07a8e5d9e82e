//! What a server's setup says. `Connect::into_setup` reads it.
//!
//! ```
//! use xiengmado::connect::Connect;
//!
//! // A success (1) of 8 + 4 × 8 bytes, with nothing but a mask in it.
//! let mut reply = [0; 40];
//! reply[0] = 1;
//! reply[6..8].copy_from_slice(&8u16.to_ne_bytes());
//! reply[16..20].copy_from_slice(&0x1f_ffffu32.to_ne_bytes());
//!
//! let (mut connect, _) = Connect::with_authorization(Vec::new(), Vec::new());
//! for part in [&reply[..8], &reply[8..]] {
//!     connect.buffer().copy_from_slice(part);
//!     connect.advance(part.len());
//! }
//! let setup = connect.into_setup().unwrap();
//! assert_eq!((setup.resource_id_mask, setup.roots_len), (0x1f_ffff, 0));
//! ```

/// A success: its fixed fields and the vendor's text. Formats and screens are counted, not read.
#[derive(Debug, Clone, PartialEq, Eq)]
pub struct Setup {
    /// The first byte, 1.
    pub status: u8,
    /// The version that the server speaks.
    pub protocol_major_version: u16,
    /// The minor version.
    pub protocol_minor_version: u16,
    /// The length behind the eighth byte, in units of four bytes.
    pub length: u16,
    /// The vendor's release.
    pub release_number: u32,
    /// The base of the client's ids.
    pub resource_id_base: u32,
    /// The mask of the client's ids.
    pub resource_id_mask: u32,
    /// The size of the motion buffer.
    pub motion_buffer_size: u32,
    /// The longest request, in units of four bytes.
    pub maximum_request_length: u16,
    /// The byte order of images.
    pub image_byte_order: u8,
    /// The bit order of bitmaps.
    pub bitmap_format_bit_order: u8,
    /// The scanline unit of bitmaps.
    pub bitmap_format_scanline_unit: u8,
    /// The scanline pad of bitmaps.
    pub bitmap_format_scanline_pad: u8,
    /// The smallest keycode.
    pub min_keycode: u8,
    /// The largest keycode.
    pub max_keycode: u8,
    /// The vendor's text.
    pub vendor: Vec<u8>,
    /// How many pixmap formats follow.
    pub pixmap_formats_len: u8,
    /// How many screens follow.
    pub roots_len: u8,
}

/// The server refused the connection.
#[derive(Debug, Clone, PartialEq, Eq)]
pub struct SetupFailed {
    /// The first byte, 0.
    pub status: u8,
    /// The version that the server speaks.
    pub protocol_major_version: u16,
    /// The minor version.
    pub protocol_minor_version: u16,
    /// The length behind the eighth byte, in units of four bytes.
    pub length: u16,
    /// Why.
    pub reason: Vec<u8>,
}

/// The server asks for further authentication.
#[derive(Debug, Clone, PartialEq, Eq)]
pub struct SetupAuthenticate {
    /// The first byte, 2.
    pub status: u8,
    /// The text behind the eighth byte.
    pub reason: Vec<u8>,
}
