//! Many requests in either byte order, and errors of which the server itself says where they belong.
//!
//! ```text
//! cargo run --example burst -- ORDER COUNT       l or B, and how many; to the display $DISPLAY
//! ```
//!
//! Every thousandth request maps a window that there is not, with an id that no other request has. The
//! error names that id, so it is known which request it answers, whatever its 16 bits of number are; the
//! engine's full number of it must be that request's.

#[allow(dead_code)]
#[path = "../shared/display.rs"]
mod display;
#[allow(dead_code)]
#[path = "../shared/wire.rs"]
mod wire;

use std::io;
use std::process::{exit, ExitCode};

use display::{display_name, ended, socket_path, Display};
use wire::{get32, named_order};
use xiengmado::id_allocator::IdAllocator;
use xiengmado::{ByteOrder, PacketClass, SequenceNumber};

const MAP_WINDOW: u8 = 8;
const NO_OPERATION: u8 = 127;

/// Sends so many requests; the id and the number of each that must fail.
fn send(
    display: &mut Display,
    ids: &mut IdAllocator,
    count: u64,
) -> io::Result<Vec<(u32, SequenceNumber)>> {
    let nothing = display.request(NO_OPERATION, 0).done();
    let mut failing = Vec::new();
    for place in 0..count {
        if place % 1_000 != 999 {
            display.tell_unchecked(&nothing)?;
            continue;
        }
        let id = ids.generate_id().expect("ids are left");
        let request = display.request(MAP_WINDOW, 0).card32(id).done();
        failing.push((id, display.tell_unchecked(&request)?));
    }
    Ok(failing)
}

/// Each error came, in order, names its id, and has the number of the request that gave that id.
fn compare(display: &mut Display, failing: &[(u32, SequenceNumber)]) -> io::Result<()> {
    for &(id, number) in failing {
        let (packet, found, class) = display.event()?;
        assert_eq!(class, PacketClass::Error, "an error");
        assert_eq!(get32(display.order, &packet, 4), id, "the errors' order");
        assert_eq!(found, number, "the number of the error that names {id:#x}");
    }
    Ok(())
}

fn run(order: ByteOrder, count: u64) -> io::Result<()> {
    let path = socket_path(&display_name()?);
    let (mut display, setup, _) = Display::open(&path, order, (b"", b""))?;
    let ids = IdAllocator::new(setup.resource_id_base, setup.resource_id_mask);
    let mut ids = ids.map_err(io::Error::other)?;
    let failing = send(&mut display, &mut ids, count)?;
    display.sync()?;
    compare(&mut display, &failing)?;
    let (requests, syncs) = (display.counts.requests, display.counts.syncs);
    let errors = failing.len();
    println!(
        "{requests} requests, {syncs} syncs; {errors} errors, each with the number of its request"
    );
    Ok(())
}

/// The byte order and the count.
fn arguments() -> Option<(ByteOrder, u64)> {
    let words: Vec<String> = std::env::args().skip(1).collect();
    let [order, count] = words.as_slice() else {
        return None;
    };
    Some((named_order(order)?, count.parse().ok()?))
}

fn main() -> ExitCode {
    let Some((order, count)) = arguments() else {
        eprintln!("usage: burst ORDER COUNT, the order l or B, so many requests to $DISPLAY");
        exit(2);
    };
    ended("burst", run(order, count))
}
