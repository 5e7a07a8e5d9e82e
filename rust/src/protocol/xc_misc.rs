//! The XC-MISC extension, which gives a client more ids.
//!
//! ```
//! use xiengmado::id_allocator::IdAllocator;
//! use xiengmado::protocol::xc_misc::{GetXIDRangeReply, GetXIDRangeRequest};
//! use xiengmado::x11_utils::{Serialize, TryParse};
//!
//! // 136 is the opcode that the server gave the extension.
//! let ([bytes], _) = GetXIDRangeRequest.serialize(136);
//! assert_eq!((bytes.len(), bytes[..2].to_vec()), (4, vec![136, 1]));
//!
//! let mut answer = GetXIDRangeReply { start_id: 0x20_0100, count: 2, ..Default::default() }
//!     .serialize()
//!     .to_vec();
//! answer.resize(32, 0);
//! let (range, _) = GetXIDRangeReply::try_parse(&answer).unwrap();
//!
//! let mut ids = IdAllocator::new(0x20_0000, 0xff).unwrap();
//! ids.update_xid_range(&range).unwrap();
//! assert_eq!(ids.generate_id(), Some(0x20_0100));
//! ```

use std::borrow::Cow;

use crate::errors::{ParseError, Refusal};
use crate::x11_utils::{check_packet, ReplyRequest, Request, Serialize, TryParse};
use crate::{ffi, BufWithFds, ByteOrder};

/// The name of the extension.
pub const X11_EXTENSION_NAME: &str = "XC-MISC";

/// The version of the extension that is known here.
pub const X11_XML_VERSION: (u32, u32) = (1, 1);

/// The opcodes of the requests.
pub const GET_VERSION_REQUEST: u8 = 0;
/// GetXIDRange.
pub const GET_XID_RANGE_REQUEST: u8 = 1;
/// GetXIDList.
pub const GET_XID_LIST_REQUEST: u8 = 2;

/// What a reply begins with.
const REPLY: u8 = 1;

/// The bytes of a request in this machine's order.
fn request(
    write: impl FnOnce(&mut [u8]) -> Result<usize, Refusal>,
) -> BufWithFds<[Cow<'static, [u8]>; 1]> {
    let mut bytes = vec![0; 8];
    let size = write(&mut bytes).expect("eight bytes are enough");
    bytes.truncate(size);
    ([bytes.into()], Vec::new())
}

/// What is parsed, and the bytes behind the reply.
fn parsed<T>(
    reply: Result<T, Refusal>,
    bytes: &[u8],
    length: impl Fn(&T) -> u32,
) -> Result<(T, &[u8]), ParseError> {
    let begins_right = || check_packet(bytes, REPLY).is_ok();
    let reply = reply.map_err(|refusal| ParseError::new(refusal, begins_right()))?;
    let end = 32 + 4 * length(&reply) as usize;
    Ok((reply, &bytes[end..]))
}

macro_rules! has_reply {
    ($($request:ident $reply:ident;)*) => {$(
        impl Request for $request {
            const EXTENSION_NAME: Option<&'static str> = Some(X11_EXTENSION_NAME);

            fn serialize(self, major_opcode: u8) -> BufWithFds<Vec<u8>> {
                let ([bytes], fds) = self.serialize(major_opcode);
                (bytes.into_owned(), fds)
            }
        }

        impl ReplyRequest for $request {
            type Reply = $reply;
        }
    )*};
}

has_reply! {
    GetVersionRequest GetVersionReply;
    GetXIDRangeRequest GetXIDRangeReply;
    GetXIDListRequest GetXIDListReply;
}

/// The first eight bytes of a reply.
fn put_head(bytes: &mut Vec<u8>, sequence: u16, length: u32) {
    bytes.extend_from_slice(&[REPLY, 0]);
    sequence.serialize_into(bytes);
    length.serialize_into(bytes);
}

/// All bytes of a reply that has so many.
fn array<const N: usize>(reply: &impl Serialize) -> [u8; N] {
    let mut bytes = Vec::with_capacity(N);
    reply.serialize_into(&mut bytes);
    bytes.try_into().expect("its bytes are as many")
}

/// Asks for the version of the extension.
#[derive(Debug, Clone, Copy, Default, PartialEq, Eq, PartialOrd, Ord, Hash)]
pub struct GetVersionRequest {
    /// The version that the client wants.
    pub client_major_version: u16,
    /// The minor version.
    pub client_minor_version: u16,
}

impl GetVersionRequest {
    /// The request's bytes; the opcode is the extension's.
    pub fn serialize(self, major_opcode: u8) -> BufWithFds<[Cow<'static, [u8]>; 1]> {
        let (major, minor) = (self.client_major_version, self.client_minor_version);
        request(|out| {
            let order = ByteOrder::NATIVE.byte();
            ffi::xc_misc_get_version_request(order, major_opcode, major, minor, out)
        })
    }
}

/// The version that the server supports.
#[derive(Debug, Clone, Copy, Default, PartialEq, Eq, PartialOrd, Ord, Hash)]
pub struct GetVersionReply {
    /// The low bits of the request's number.
    pub sequence: u16,
    /// The length behind byte 32, in units of four bytes.
    pub length: u32,
    /// The version.
    pub server_major_version: u16,
    /// The minor version.
    pub server_minor_version: u16,
}

impl TryParse for GetVersionReply {
    fn try_parse(value: &[u8]) -> Result<(Self, &[u8]), ParseError> {
        let fields = ffi::xc_misc_get_version_reply(ByteOrder::NATIVE.byte(), value);
        let reply = fields.map(|(sequence, length, major, minor)| GetVersionReply {
            sequence,
            length,
            server_major_version: major,
            server_minor_version: minor,
        });
        parsed(reply, value, |reply| reply.length)
    }
}

impl Serialize for GetVersionReply {
    type Bytes = [u8; 12];

    fn serialize(&self) -> [u8; 12] {
        array(self)
    }

    fn serialize_into(&self, bytes: &mut Vec<u8>) {
        put_head(bytes, self.sequence, self.length);
        self.server_major_version.serialize_into(bytes);
        self.server_minor_version.serialize_into(bytes);
    }
}

/// Asks for a range of ids.
#[derive(Debug, Clone, Copy, Default, PartialEq, Eq, PartialOrd, Ord, Hash)]
pub struct GetXIDRangeRequest;

impl GetXIDRangeRequest {
    /// The request's bytes; the opcode is the extension's.
    pub fn serialize(self, major_opcode: u8) -> BufWithFds<[Cow<'static, [u8]>; 1]> {
        request(|out| {
            ffi::xc_misc_get_xid_range_request(ByteOrder::NATIVE.byte(), major_opcode, out)
        })
    }
}

/// A range of ids.
#[derive(Debug, Clone, Copy, Default, PartialEq, Eq, PartialOrd, Ord, Hash)]
pub struct GetXIDRangeReply {
    /// The low bits of the request's number.
    pub sequence: u16,
    /// The length behind byte 32, in units of four bytes.
    pub length: u32,
    /// The first id.
    pub start_id: u32,
    /// How many there are.
    pub count: u32,
}

impl TryParse for GetXIDRangeReply {
    fn try_parse(value: &[u8]) -> Result<(Self, &[u8]), ParseError> {
        let fields = ffi::xc_misc_get_xid_range_reply(ByteOrder::NATIVE.byte(), value);
        let reply = fields.map(|(sequence, length, start_id, count)| GetXIDRangeReply {
            sequence,
            length,
            start_id,
            count,
        });
        parsed(reply, value, |reply| reply.length)
    }
}

impl Serialize for GetXIDRangeReply {
    type Bytes = [u8; 16];

    fn serialize(&self) -> [u8; 16] {
        array(self)
    }

    fn serialize_into(&self, bytes: &mut Vec<u8>) {
        put_head(bytes, self.sequence, self.length);
        self.start_id.serialize_into(bytes);
        self.count.serialize_into(bytes);
    }
}

/// Asks for a list of ids.
#[derive(Debug, Clone, Copy, Default, PartialEq, Eq, PartialOrd, Ord, Hash)]
pub struct GetXIDListRequest {
    /// How many are wanted.
    pub count: u32,
}

impl GetXIDListRequest {
    /// The request's bytes; the opcode is the extension's.
    pub fn serialize(self, major_opcode: u8) -> BufWithFds<[Cow<'static, [u8]>; 1]> {
        request(|out| {
            let order = ByteOrder::NATIVE.byte();
            ffi::xc_misc_get_xid_list_request(order, major_opcode, self.count, out)
        })
    }
}

/// A list of ids.
#[derive(Debug, Clone, Default, PartialEq, Eq, PartialOrd, Ord, Hash)]
pub struct GetXIDListReply {
    /// The low bits of the request's number.
    pub sequence: u16,
    /// The length behind byte 32, in units of four bytes.
    pub length: u32,
    /// The ids.
    pub ids: Vec<u32>,
}

impl GetXIDListReply {
    /// How many ids there are. Panics for 2^32 or more.
    pub fn ids_len(&self) -> u32 {
        u32::try_from(self.ids.len()).expect("under 2^32 ids")
    }
}

impl TryParse for GetXIDListReply {
    fn try_parse(value: &[u8]) -> Result<(Self, &[u8]), ParseError> {
        let mut ids = vec![0; value.len() / 4];
        let fields = ffi::xc_misc_get_xid_list_reply(ByteOrder::NATIVE.byte(), value, &mut ids);
        let reply = fields.map(|(sequence, length, count)| {
            ids.truncate(count as usize);
            GetXIDListReply {
                sequence,
                length,
                ids,
            }
        });
        if matches!(reply, Err(Refusal::BadContent)) && lacks_ids(value) {
            return Err(ParseError::InsufficientData);
        }
        parsed(reply, value, |reply| reply.length)
    }
}

/// Whether a reply of 32 bytes or more counts more ids than follow: the original says so before it looks
/// at the first byte.
fn lacks_ids(value: &[u8]) -> bool {
    let [count, ids] = [8..12, 32..value.len()].map(|part| &value[part]);
    u32::try_parse(count).is_ok_and(|(count, _)| count as usize > ids.len() / 4)
}

impl Serialize for GetXIDListReply {
    type Bytes = Vec<u8>;

    fn serialize(&self) -> Vec<u8> {
        let mut bytes = Vec::new();
        self.serialize_into(&mut bytes);
        bytes
    }

    fn serialize_into(&self, bytes: &mut Vec<u8>) {
        put_head(bytes, self.sequence, self.length);
        self.ids_len().serialize_into(bytes);
        bytes.extend_from_slice(&[0; 20]);
        self.ids.iter().for_each(|id| id.serialize_into(bytes));
    }
}

#[cfg(test)]
mod test {
    use super::*;

    #[test]
    fn requests() {
        let version = GetVersionRequest {
            client_major_version: 1,
            client_minor_version: 1,
        };
        let [one, units] = [1u16, 2].map(u16::to_ne_bytes);
        let ([bytes], fds) = version.serialize(136);
        assert_eq!(*bytes, [&[136, 0], &units[..], &one, &one].concat());
        assert!(fds.is_empty());
        let ([bytes], _) = GetXIDRangeRequest.serialize(136);
        assert_eq!(*bytes, [&[136, 1], &one[..]].concat());
        let ([bytes], _) = GetXIDListRequest { count: 1 }.serialize(136);
        let count = 1u32.to_ne_bytes();
        assert_eq!(*bytes, [&[136, 2], &units[..], &count].concat());
        let (run, _) = Request::serialize(GetXIDListRequest { count: 1 }, 136);
        assert_eq!(*bytes, run);
    }

    fn reply(units: u32, fields: &[u32]) -> Vec<u8> {
        let mut bytes = vec![0; 32 + 4 * units as usize];
        bytes[0] = 1;
        bytes[4..8].copy_from_slice(&units.to_ne_bytes());
        for (i, field) in fields.iter().enumerate() {
            bytes[8 + 4 * i..12 + 4 * i].copy_from_slice(&field.to_ne_bytes());
        }
        bytes
    }

    #[test]
    fn replies() {
        let mut bytes = reply(0, &[7, 9]);
        bytes.push(5);
        let (range, rest) = GetXIDRangeReply::try_parse(&bytes).unwrap();
        assert_eq!((range.start_id, range.count, rest), (7, 9, &[5][..]));
        let bytes = reply(2, &[2, 0, 0, 0, 0, 0, 11, 12]);
        let (list, rest) = GetXIDListReply::try_parse(&bytes).unwrap();
        assert_eq!((list.ids, rest), (vec![11, 12], &[][..]));
        let (version, _) = GetVersionReply::try_parse(&bytes).unwrap();
        assert_eq!(version.length, 2);
    }

    #[test]
    fn bad_replies() {
        let mut bytes = reply(2, &[2, 0, 0, 0, 0, 0, 11, 12]);
        let missing = Err(ParseError::InsufficientData);
        assert_eq!(GetVersionReply::try_parse(&bytes[..31]), missing);
        let cut = GetXIDListReply::try_parse(&bytes[..36]);
        assert_eq!(cut, Err(ParseError::InsufficientData));
        bytes[0] = 0;
        let cut = GetXIDListReply::try_parse(&bytes[..36]);
        assert_eq!(cut, Err(ParseError::InsufficientData));
        let whole = GetXIDListReply::try_parse(&bytes);
        assert_eq!(whole, Err(ParseError::InvalidValue));
        bytes.resize(65_537, 0);
        let long = GetXIDListReply::try_parse(&bytes);
        assert_eq!(long, Err(ParseError::Refused(Refusal::LongPacket)));
    }

    /// What is written, with zeros up to 32 bytes, is read back.
    fn again<T: Serialize<Bytes: AsRef<[u8]>> + TryParse + PartialEq + std::fmt::Debug>(reply: T) {
        let mut bytes = reply.serialize().as_ref().to_vec();
        bytes.resize(bytes.len().max(32), 0);
        assert_eq!(T::try_parse(&bytes), Ok((reply, &[][..])));
    }

    #[test]
    fn replies_are_written_and_read_back() {
        again(GetVersionReply {
            sequence: 9,
            length: 0,
            server_major_version: 1,
            server_minor_version: 2,
        });
        again(GetXIDRangeReply {
            sequence: 9,
            length: 0,
            start_id: 0x20_0000,
            count: 7,
        });
        again(GetXIDListReply {
            sequence: 9,
            length: 2,
            ids: vec![11, 12],
        });
    }
}
