//! Error packets and XC-MISC.

use std::fmt::Debug;

use x11rb::protocol::xc_misc as theirs;
use x11rb::x11_utils::{ExtInfoProvider, ExtensionInformation, RequestHeader, TryParse as _};
use xiengmado::protocol::xc_misc as ours;
use xiengmado::x11_utils::TryParse as _;

use crate::chance::Chance;

/// No extension is known, so that no error code is one of an extension.
struct NoExtensions;

impl ExtInfoProvider for NoExtensions {
    fn get_from_major_opcode(&self, _: u8) -> Option<(&str, ExtensionInformation)> {
        None
    }

    fn get_from_event_code(&self, _: u8) -> Option<(&str, ExtensionInformation)> {
        None
    }

    fn get_from_error_code(&self, _: u8) -> Option<(&str, ExtensionInformation)> {
        None
    }
}

/// A packet of 32 to 159 bytes whose first byte is most often the one that is asked for.
fn packet(chance: &mut Chance, first: u8) -> Vec<u8> {
    let size = 32 + chance.below(128) as usize;
    let mut bytes = chance.bytes(size);
    bytes[0] = if chance.once(4) { bytes[0] } else { first };
    bytes
}

/// A field of four bytes that is most often small.
fn put_small(chance: &mut Chance, bytes: &mut [u8], at: usize) {
    if !chance.once(8) {
        let small = chance.below(40) as u32;
        bytes[at..at + 4].copy_from_slice(&small.to_ne_bytes());
    }
}

/// An answer, with the name of its error: those of the two sides are different types.
pub fn named<T>(answer: Result<T, impl Debug>) -> Result<T, String> {
    answer.map_err(|error| format!("{error:?}"))
}

/// Whether both read the error.
pub fn error(chance: &mut Chance) -> bool {
    let bytes = packet(chance, 0);
    let a = named(xiengmado::x11_utils::X11Error::try_parse(&bytes));
    let b = named(x11rb::x11_utils::X11Error::try_parse(&bytes, &NoExtensions));
    let a = a.map(|e| {
        (
            e.error_code,
            e.sequence,
            e.bad_value,
            e.minor_opcode,
            e.major_opcode,
        )
    });
    let b = b.map(|e| {
        (
            e.error_code,
            e.sequence,
            e.bad_value,
            e.minor_opcode,
            e.major_opcode,
        )
    });
    assert_eq!(a, b, "{bytes:?}");
    a.is_ok()
}

/// Whether both read the reply to GetVersion.
pub fn version(chance: &mut Chance) -> bool {
    let mut bytes = packet(chance, 1);
    put_small(chance, &mut bytes, 4);
    let a = named(ours::GetVersionReply::try_parse(&bytes));
    let b = named(theirs::GetVersionReply::try_parse(&bytes));
    let a = a.map(|(r, rest)| {
        (
            r.sequence,
            r.length,
            r.server_major_version,
            r.server_minor_version,
            rest,
        )
    });
    let b = b.map(|(r, rest)| {
        (
            r.sequence,
            r.length,
            r.server_major_version,
            r.server_minor_version,
            rest,
        )
    });
    assert_eq!(a, b, "{bytes:?}");
    a.is_ok()
}

/// Whether both read the reply to GetXIDRange.
pub fn range(chance: &mut Chance) -> bool {
    let mut bytes = packet(chance, 1);
    put_small(chance, &mut bytes, 4);
    let a = named(ours::GetXIDRangeReply::try_parse(&bytes));
    let b = named(theirs::GetXIDRangeReply::try_parse(&bytes));
    let a = a.map(|(r, rest)| (r.sequence, r.length, r.start_id, r.count, rest));
    let b = b.map(|(r, rest)| (r.sequence, r.length, r.start_id, r.count, rest));
    assert_eq!(a, b, "{bytes:?}");
    a.is_ok()
}

/// Whether both read the reply to GetXIDList.
pub fn list(chance: &mut Chance) -> bool {
    let mut bytes = packet(chance, 1);
    put_small(chance, &mut bytes, 4);
    put_small(chance, &mut bytes, 8);
    let a = named(ours::GetXIDListReply::try_parse(&bytes));
    let b = named(theirs::GetXIDListReply::try_parse(&bytes));
    let a = a.map(|(r, rest)| (r.sequence, r.length, r.ids, rest));
    let b = b.map(|(r, rest)| (r.sequence, r.length, r.ids, rest));
    assert_eq!(a, b, "{bytes:?}");
    a.is_ok()
}

/// The header of a request, and its bytes behind that.
fn header(bytes: &[u8]) -> (RequestHeader, &[u8]) {
    let units = u16::from_ne_bytes([bytes[2], bytes[3]]);
    assert_eq!(4 * usize::from(units), bytes.len());
    let header = RequestHeader {
        major_opcode: bytes[0],
        minor_opcode: bytes[1],
        remaining_length: u32::from(units) - 1,
    };
    (header, &bytes[4..])
}

/// What is written here is read there.
pub fn requests(chance: &mut Chance) {
    let opcode = chance.next() as u8;
    let (major, minor, count) = (
        chance.next() as u16,
        chance.next() as u16,
        chance.next() as u32,
    );
    let version = ours::GetVersionRequest {
        client_major_version: major,
        client_minor_version: minor,
    };
    let ([bytes], _) = version.serialize(opcode);
    let (head, rest) = header(&bytes);
    let read = theirs::GetVersionRequest::try_parse_request(head, rest).expect("a GetVersion");
    assert_eq!((bytes[0], read.client_major_version), (opcode, major));
    assert_eq!((bytes.len(), read.client_minor_version), (8, minor));

    let ([bytes], _) = ours::GetXIDRangeRequest.serialize(opcode);
    let (head, rest) = header(&bytes);
    theirs::GetXIDRangeRequest::try_parse_request(head, rest).expect("a GetXIDRange");
    assert_eq!((bytes[0], bytes.len()), (opcode, 4));

    let ([bytes], _) = ours::GetXIDListRequest { count }.serialize(opcode);
    let (head, rest) = header(&bytes);
    let read = theirs::GetXIDListRequest::try_parse_request(head, rest).expect("a GetXIDList");
    assert_eq!((bytes[0], bytes.len(), read.count), (opcode, 8, count));
}
