//! The setup request, and the server's reply to it.

use x11rb::protocol::xproto as theirs;
use x11rb::x11_utils::{Serialize, TryParse};
use xiengmado::connect::Connect;
use xiengmado::errors::ConnectError;
use xiengmado::protocol::xproto as ours;

use crate::chance::Chance;

/// Both write the same request.
pub fn request(chance: &mut Chance) {
    let (m, n) = (chance.below(40) as usize, chance.below(40) as usize);
    let (name, data) = (chance.bytes(m), chance.bytes(n));
    let (_, request) = Connect::with_authorization(name.clone(), data.clone());
    let other = theirs::SetupRequest {
        byte_order: if cfg!(target_endian = "little") {
            0x6c
        } else {
            0x42
        },
        protocol_major_version: 11,
        protocol_minor_version: 0,
        authorization_protocol_name: name,
        authorization_protocol_data: data,
    };
    assert_eq!(request, other.serialize());
}

/// A reply that is complete: its length field counts the bytes behind the eighth.
fn bytes(chance: &mut Chance) -> Vec<u8> {
    let units = chance.below(64) as u16 + 1;
    let mut bytes = chance.bytes(8 + 4 * usize::from(units));
    bytes[0] = chance.below(3) as u8;
    bytes[1] = chance.below(200) as u8;
    bytes[6..8].copy_from_slice(&units.to_ne_bytes());
    if bytes.len() >= 40 {
        let vendor = chance.below(260) as u16;
        bytes[24..26].copy_from_slice(&vendor.to_ne_bytes());
        bytes[28..30].fill(0);
    }
    bytes
}

/// What the engine says of a reply, fed in pieces of any size.
fn fed(chance: &mut Chance, mut reply: &[u8]) -> Result<ours::Setup, ConnectError> {
    let (mut connect, _) = Connect::with_authorization(Vec::new(), Vec::new());
    while !reply.is_empty() {
        let part = connect.buffer();
        let n = part
            .len()
            .min(reply.len())
            .min(1 + chance.below(60) as usize);
        part[..n].copy_from_slice(&reply[..n]);
        reply = &reply[n..];
        assert_eq!(connect.advance(n), reply.is_empty());
    }
    connect.into_setup()
}

fn same(a: &ours::Setup, b: &theirs::Setup) {
    assert_eq!((a.status, a.length), (b.status, b.length));
    let version = (b.protocol_major_version, b.protocol_minor_version);
    assert_eq!(
        (a.protocol_major_version, a.protocol_minor_version),
        version
    );
    let numbers = (
        b.release_number,
        b.resource_id_base,
        b.resource_id_mask,
        b.motion_buffer_size,
    );
    assert_eq!(
        (
            a.release_number,
            a.resource_id_base,
            a.resource_id_mask,
            a.motion_buffer_size
        ),
        numbers
    );
    assert_eq!(a.maximum_request_length, b.maximum_request_length);
    assert_eq!(a.image_byte_order, u8::from(b.image_byte_order));
    assert_eq!(
        a.bitmap_format_bit_order,
        u8::from(b.bitmap_format_bit_order)
    );
    assert_eq!(a.bitmap_format_scanline_unit, b.bitmap_format_scanline_unit);
    assert_eq!(a.bitmap_format_scanline_pad, b.bitmap_format_scanline_pad);
    assert_eq!(
        (a.min_keycode, a.max_keycode),
        (b.min_keycode, b.max_keycode)
    );
    assert_eq!(a.vendor, b.vendor);
    assert_eq!(usize::from(a.pixmap_formats_len), b.pixmap_formats.len());
    assert_eq!(usize::from(a.roots_len), b.roots.len());
}

type Answer = Result<ours::Setup, ConnectError>;

/// Whether both read a failure.
fn failed(answer: Answer, bytes: &[u8]) -> bool {
    let read = theirs::SetupFailed::try_parse(bytes);
    match (answer, read) {
        (Err(ConnectError::SetupFailed(a)), Ok((b, _))) => {
            let version = (b.protocol_major_version, b.protocol_minor_version);
            assert_eq!(
                (a.protocol_major_version, a.protocol_minor_version),
                version
            );
            assert_eq!(
                (a.status, a.length, a.reason),
                (b.status, b.length, b.reason)
            );
            true
        }
        (Err(ConnectError::ParseError(a)), Err(b)) => {
            assert_eq!(format!("{a:?}"), format!("{b:?}"));
            false
        }
        other => panic!("{other:?}: {bytes:?}"),
    }
}

/// Whether both read a success.
fn succeeded(answer: Answer, bytes: &[u8]) -> bool {
    let read = theirs::Setup::try_parse(bytes);
    match (answer, read) {
        (Ok(a), Ok((b, _))) => {
            same(&a, &b);
            true
        }
        (Err(ConnectError::ParseError(a)), Err(b)) => {
            assert_eq!(format!("{a:?}"), format!("{b:?}"));
            false
        }
        other => panic!("{other:?}: {bytes:?}"),
    }
}

/// Both read a wish for more data.
fn continued(answer: Answer, bytes: &[u8]) -> bool {
    let read = theirs::SetupAuthenticate::try_parse(bytes);
    match (answer, read) {
        (Err(ConnectError::SetupAuthenticate(a)), Ok((b, _))) => {
            assert_eq!((a.status, a.reason), (b.status, b.reason));
            true
        }
        other => panic!("{other:?}: {bytes:?}"),
    }
}

/// The status of a reply that both read. It has no formats and no screens, which the engine counts and does not read.
pub fn reply(chance: &mut Chance) -> Option<u8> {
    let bytes = bytes(chance);
    let answer = fed(chance, &bytes);
    let read = match bytes[0] {
        0 => failed(answer, &bytes),
        1 => succeeded(answer, &bytes),
        _ => continued(answer, &bytes),
    };
    read.then_some(bytes[0])
}
