//! What all packets share: the traits of what is read and written, and the fields of an error.
//!
//! The traits have the shape that the original's XC-MISC module shows of them. Numbers are in this
//! machine's byte order.
//!
//! ```
//! use xiengmado::x11_utils::{Serialize, TryParse, X11Error};
//!
//! let bytes = 77u32.serialize();
//! assert_eq!(u32::try_parse(&bytes), Ok((77, &[][..])));
//!
//! // BadValue (2) of request 1, CreateWindow, for 77
//! let mut packet = [0; 32];
//! packet[1] = 2;
//! packet[2..4].copy_from_slice(&1u16.serialize());
//! packet[4..8].copy_from_slice(&bytes);
//! packet[10] = 1;
//! let error = X11Error::try_parse(&packet).unwrap();
//! assert_eq!((error.error_code, error.bad_value, error.major_opcode), (2, 77, 1));
//! ```

use crate::errors::ParseError;
use crate::{ffi, BufWithFds, ByteOrder};

/// Something that can be parsed from bytes of the server.
pub trait TryParse: Sized {
    /// What stands at the start of the bytes, and the bytes behind it.
    fn try_parse(value: &[u8]) -> Result<(Self, &[u8]), ParseError>;
}

/// Something that can be written as bytes.
pub trait Serialize {
    /// Its bytes: an array where there are always as many.
    type Bytes;
    /// Its bytes.
    fn serialize(&self) -> Self::Bytes;
    /// Its bytes, behind those that are there.
    fn serialize_into(&self, bytes: &mut Vec<u8>);
}

/// A request, with its bytes in one run.
pub trait Request {
    /// The name of its extension, or `None` for the core protocol.
    const EXTENSION_NAME: Option<&'static str>;
    /// Its bytes and descriptors; the opcode is the extension's.
    fn serialize(self, major_opcode: u8) -> BufWithFds<Vec<u8>>;
}

/// A request that has a reply.
pub trait ReplyRequest: Request {
    /// Its reply.
    type Reply: TryParse;
}

macro_rules! integers {
    ($($integer:ident)*) => {$(
        impl TryParse for $integer {
            fn try_parse(value: &[u8]) -> Result<(Self, &[u8]), ParseError> {
                match value.split_first_chunk() {
                    Some((bytes, rest)) => Ok(($integer::from_ne_bytes(*bytes), rest)),
                    None => Err(ParseError::InsufficientData),
                }
            }
        }

        impl Serialize for $integer {
            type Bytes = [u8; std::mem::size_of::<$integer>()];
            fn serialize(&self) -> Self::Bytes {
                self.to_ne_bytes()
            }
            fn serialize_into(&self, bytes: &mut Vec<u8>) {
                bytes.extend_from_slice(&self.to_ne_bytes());
            }
        }
    )*};
}

integers! { u8 u16 u32 }

/// Whether a packet's fields can be read: 32 to 65,536 bytes of which the first is the one given.
pub fn check_packet(packet: &[u8], first: u8) -> Result<(), ParseError> {
    ffi::check_packet(ByteOrder::NATIVE.byte(), packet, first)
        .map_err(|refusal| ParseError::new(refusal, false))
}

/// An error packet. The names of errors and requests belong to the caller.
#[derive(Debug, Clone, Copy, PartialEq, Eq)]
pub struct X11Error {
    /// The kind of error as it appears on the wire.
    pub error_code: u8,
    /// The low bits of the number of the request that caused it.
    pub sequence: u16,
    /// The value in the request that was bad.
    pub bad_value: u32,
    /// The minor opcode of the request.
    pub minor_opcode: u16,
    /// The major opcode of the request.
    pub major_opcode: u8,
}

impl X11Error {
    /// The fields of an error packet in this machine's byte order.
    pub fn try_parse(data: &[u8]) -> Result<Self, ParseError> {
        let (error_code, sequence, bad_value, minor_opcode, major_opcode) =
            ffi::error(ByteOrder::NATIVE.byte(), data)
                .map_err(|refusal| ParseError::new(refusal, false))?;
        Ok(X11Error {
            error_code,
            sequence,
            bad_value,
            minor_opcode,
            major_opcode,
        })
    }
}

#[cfg(test)]
mod test {
    use super::*;
    use crate::Refusal;

    #[test]
    fn an_error() {
        let mut bytes = [0; 32];
        bytes[1] = 3;
        bytes[2..4].copy_from_slice(&258u16.to_ne_bytes());
        bytes[4..8].copy_from_slice(&77u32.to_ne_bytes());
        bytes[8..10].copy_from_slice(&5u16.to_ne_bytes());
        bytes[10] = 20;
        let error = X11Error::try_parse(&bytes).unwrap();
        assert_eq!((error.error_code, error.sequence), (3, 258));
        assert_eq!((error.bad_value, error.minor_opcode), (77, 5));
        assert_eq!(error.major_opcode, 20);
        assert_eq!(check_packet(&bytes, 0), Ok(()));
        assert_eq!(check_packet(&bytes, 1), Err(ParseError::InvalidValue));
        bytes[0] = 1;
        let wrong = X11Error::try_parse(&bytes);
        assert_eq!(wrong, Err(ParseError::InvalidValue));
        let long = X11Error::try_parse(&[0; 65_537]);
        assert_eq!(long, Err(ParseError::Refused(Refusal::LongPacket)));
    }

    #[test]
    fn integers() {
        let mut bytes = vec![9];
        258u16.serialize_into(&mut bytes);
        let (first, rest) = u8::try_parse(&bytes).unwrap();
        assert_eq!((first, u16::try_parse(rest)), (9, Ok((258, &[][..]))));
        assert_eq!(u32::try_parse(&bytes), Err(ParseError::InsufficientData));
    }
}
