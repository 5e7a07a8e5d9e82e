//! The handshake that opens a connection.
//!
//! ```
//! use std::io::{self, Read, Write};
//! use xiengmado::connect::Connect;
//! use xiengmado::errors::ConnectError;
//! use xiengmado::protocol::xproto::Setup;
//!
//! fn shake_hands(stream: &mut (impl Read + Write)) -> Result<Setup, ConnectError> {
//!     let (mut connect, request) = Connect::with_authorization(Vec::new(), Vec::new());
//!     stream.write_all(&request)?;
//!     loop {
//!         let bytes = stream.read(connect.buffer())?;
//!         if bytes == 0 || connect.advance(bytes) {
//!             return connect.into_setup();
//!         }
//!     }
//! }
//!
//! // A server that takes any request and refuses the connection.
//! let mut refusal = vec![0, 4, 11, 0, 0, 0];
//! refusal.extend(1u16.to_ne_bytes());
//! refusal.extend(b"away");
//! let mut server = io::Cursor::new([&[0; 12], &refusal[..]].concat());
//! match shake_hands(&mut server) {
//!     Err(ConnectError::SetupFailed(failed)) => assert_eq!(failed.reason, b"away"),
//!     other => panic!("{other:?}"),
//! }
//! ```

use crate::errors::{ConnectError, ParseError, Refusal};
use crate::protocol::xproto::{Setup, SetupAuthenticate, SetupFailed};
use crate::{ffi, ByteOrder};

/// The buffer that `Connect::with_authorization` begins with, and the most that it grows to: as large
/// as one may be.
const FIRST: usize = 8;
const MOST: usize = 262_148;

/// A handshake: the server's reply as far as it has come.
///
/// Authority data is not looked for: its owner hands name and data in.
#[derive(Debug, Clone)]
pub struct Connect {
    state: [u64; ffi::SLOTS],
    order: ByteOrder,
    buffer: Vec<u8>,
    most: usize,
}

impl Connect {
    /// A handshake, and the request to send. Panics for a name or data over 65,535 bytes.
    pub fn with_authorization(protocol_name: Vec<u8>, protocol_data: Vec<u8>) -> (Self, Vec<u8>) {
        let order = ByteOrder::NATIVE;
        let (connect, request) = Self::with_buffer(order, &protocol_name, &protocol_data, FIRST)
            .unwrap_or_else(|refusal| panic!("with_authorization: {refusal}"));
        let most = MOST;
        (Connect { most, ..connect }, request)
    }

    /// The same for a reply of up to so many bytes (8 to 262,148). Refused by 9, 16.
    pub fn with_buffer(
        order: ByteOrder,
        protocol_name: &[u8],
        protocol_data: &[u8],
        size: usize,
    ) -> Result<(Self, Vec<u8>), Refusal> {
        let mut connect = Connect {
            state: [0; ffi::SLOTS],
            order,
            buffer: vec![0; size],
            most: size,
        };
        ffi::connect_new(&mut connect.state, order.byte(), &connect.buffer)?;
        let mut request = vec![0; 18 + protocol_name.len() + protocol_data.len()];
        let size = ffi::setup_request(order.byte(), protocol_name, protocol_data, &mut request)?;
        request.truncate(size);
        Ok((connect, request))
    }

    /// The part that is to be filled with bytes of the server; empty once the reply is complete.
    #[inline]
    pub fn buffer(&mut self) -> &mut [u8] {
        // The two numbers that the engine answers for a whole handshake, without the call.
        let (start, end) = (
            self.state[ffi::READER_FILLED] as usize,
            self.state[ffi::READER_TARGET] as usize,
        );
        debug_assert_eq!(
            ffi::connect_buffer(&self.state, &self.buffer),
            Ok((start, end - start))
        );
        &mut self.buffer[start..end]
    }

    /// How many bytes that part has.
    pub fn remaining_capacity(&self) -> usize {
        ffi::connect_remaining_capacity(&self.state, &self.buffer).expect("the handshake is whole")
    }

    /// The bytes that were filled so far.
    pub fn filled(&self) -> &[u8] {
        &self.buffer[..self.state[ffi::READER_FILLED] as usize]
    }

    /// So many bytes of the part were filled. Says whether the reply is complete; panics for more
    /// bytes than the part has, and for a reply that is longer than the buffer.
    pub fn advance(&mut self, bytes: usize) -> bool {
        self.try_advance(bytes)
            .unwrap_or_else(|refusal| panic!("advance: {refusal}"))
    }

    /// The same. Refused by 7, 2.
    pub fn try_advance(&mut self, bytes: usize) -> Result<bool, Refusal> {
        let mut answer = ffi::connect_advance(&mut self.state, &self.buffer, bytes);
        if answer == Err(Refusal::LongPacket) && self.buffer.len() < self.most {
            self.grow();
            answer = ffi::connect_advance(&mut self.state, &self.buffer, bytes);
        }
        Ok(answer? != 0)
    }

    /// The buffer takes the whole reply, whose length in fours is at bytes 6 and 7, if it may.
    fn grow(&mut self) {
        let field = [self.buffer[6], self.buffer[7]];
        let fours = match self.order {
            ByteOrder::Little => u16::from_le_bytes(field),
            ByteOrder::Big => u16::from_be_bytes(field),
        };
        let size = FIRST + 4 * usize::from(fours);
        self.buffer.resize(size.min(self.most), 0);
    }

    /// The setup of a complete reply.
    pub fn into_setup(self) -> Result<Setup, ConnectError> {
        let mut fields = [0; ffi::SETUP_FIELDS];
        let status = match ffi::connect_setup(&self.state, &self.buffer, &mut fields) {
            Ok(status) => status,
            Err(Refusal::Incomplete) => {
                return Err(ConnectError::Incomplete {
                    expected: self.state[ffi::READER_TARGET] as usize,
                    received: self.state[ffi::READER_FILLED] as usize,
                })
            }
            // 0, 1 and 2 are the replies that there are; of such a one, bytes are missing.
            Err(refusal) => return Err(ParseError::new(refusal, self.buffer[0] <= 2).into()),
        };
        match status {
            0 => Err(ConnectError::SetupFailed(SetupFailed {
                status,
                protocol_major_version: fields[ffi::SETUP_MAJOR] as u16,
                protocol_minor_version: fields[ffi::SETUP_MINOR] as u16,
                length: fields[ffi::SETUP_LENGTH] as u16,
                reason: self.reason(),
            })),
            1 => Ok(self.success(&fields)),
            _ => Err(ConnectError::SetupAuthenticate(SetupAuthenticate {
                status,
                reason: self.reason(),
            })),
        }
    }

    fn success(&self, fields: &[u32; ffi::SETUP_FIELDS]) -> Setup {
        Setup {
            status: 1,
            protocol_major_version: fields[ffi::SETUP_MAJOR] as u16,
            protocol_minor_version: fields[ffi::SETUP_MINOR] as u16,
            length: fields[ffi::SETUP_LENGTH] as u16,
            release_number: fields[ffi::SETUP_RELEASE],
            resource_id_base: fields[ffi::SETUP_BASE],
            resource_id_mask: fields[ffi::SETUP_MASK],
            motion_buffer_size: fields[ffi::SETUP_MOTION],
            maximum_request_length: fields[ffi::SETUP_REQUEST] as u16,
            image_byte_order: fields[ffi::SETUP_IMAGE] as u8,
            bitmap_format_bit_order: fields[ffi::SETUP_BITMAP] as u8,
            bitmap_format_scanline_unit: fields[ffi::SETUP_UNIT] as u8,
            bitmap_format_scanline_pad: fields[ffi::SETUP_PAD] as u8,
            min_keycode: fields[ffi::SETUP_FIRST] as u8,
            max_keycode: fields[ffi::SETUP_LAST] as u8,
            vendor: self.vendor(),
            pixmap_formats_len: fields[ffi::SETUP_FORMATS] as u8,
            roots_len: fields[ffi::SETUP_ROOTS] as u8,
        }
    }

    fn vendor(&self) -> Vec<u8> {
        let place = ffi::connect_vendor(&self.state, &self.buffer);
        self.text(place)
    }

    fn reason(&self) -> Vec<u8> {
        let place = ffi::connect_reason(&self.state, &self.buffer);
        self.text(place)
    }

    fn text(&self, place: Result<(usize, usize), Refusal>) -> Vec<u8> {
        let (start, size) = place.expect("the setup was read");
        self.buffer[start..start + size].to_vec()
    }
}

impl TryFrom<Connect> for Setup {
    type Error = ConnectError;

    fn try_from(connect: Connect) -> Result<Self, Self::Error> {
        connect.into_setup()
    }
}

#[cfg(test)]
mod test {
    use super::*;

    fn feed(reply: &[u8]) -> Connect {
        let (mut connect, _) = Connect::with_authorization(Vec::new(), Vec::new());
        let mut rest = reply;
        while !rest.is_empty() {
            let wanted = connect.remaining_capacity();
            let part = connect.buffer();
            assert_eq!(part.len(), wanted);
            let n = part.len().min(rest.len()).min(3);
            part[..n].copy_from_slice(&rest[..n]);
            rest = &rest[n..];
            let complete = connect.advance(n);
            assert!(!complete || rest.is_empty());
        }
        connect
    }

    fn reply(status: u8, detail: u8, units: u16) -> Vec<u8> {
        let mut bytes = vec![0; 8 + 4 * usize::from(units)];
        bytes[0] = status;
        bytes[1] = detail;
        bytes[2..4].copy_from_slice(&11u16.to_ne_bytes());
        bytes[6..8].copy_from_slice(&units.to_ne_bytes());
        bytes
    }

    #[test]
    fn the_request() {
        let (_, request) = Connect::with_authorization(b"NAME1".to_vec(), b"data".to_vec());
        assert_eq!(request.len(), 12 + 8 + 4);
        assert_eq!(&request[12..], b"NAME1\0\0\0data");
        let long = vec![0; 65_536];
        let refused = Connect::with_buffer(ByteOrder::Big, &long, &[], 8);
        assert_eq!(refused.err(), Some(Refusal::LongAuth));
    }

    #[test]
    fn success() {
        let mut bytes = reply(1, 0, 10);
        bytes[12..16].copy_from_slice(&0x200000u32.to_ne_bytes());
        bytes[24..26].copy_from_slice(&5u16.to_ne_bytes());
        bytes[40..45].copy_from_slice(b"Maker");
        let setup = feed(&bytes).into_setup().unwrap();
        assert_eq!(setup.protocol_major_version, 11);
        assert_eq!(setup.resource_id_base, 0x200000);
        assert_eq!(setup.vendor, b"Maker");
    }

    #[test]
    fn failures() {
        let mut bytes = reply(0, 4, 1);
        bytes[8..].copy_from_slice(b"away");
        match feed(&bytes).into_setup() {
            Err(ConnectError::SetupFailed(failed)) => assert_eq!(failed.reason, b"away"),
            other => panic!("{other:?}"),
        }
        bytes[0] = 2;
        match feed(&bytes).into_setup() {
            Err(ConnectError::SetupAuthenticate(more)) => assert_eq!(more.reason, b"away"),
            other => panic!("{other:?}"),
        }
        bytes[0] = 3;
        let unknown = ConnectError::ParseError(ParseError::InvalidValue);
        assert_eq!(said(feed(&bytes)), format!("{unknown:?}"));
        bytes[0] = 1;
        let short = ConnectError::ParseError(ParseError::InsufficientData);
        assert_eq!(said(feed(&bytes)), format!("{short:?}"));
        let incomplete = ConnectError::Incomplete {
            expected: 12,
            received: 9,
        };
        assert_eq!(said(feed(&bytes[..9])), format!("{incomplete:?}"));
    }

    fn said(connect: Connect) -> String {
        format!("{:?}", Setup::try_from(connect).unwrap_err())
    }
}
