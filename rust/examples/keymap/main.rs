//! Events that carry no number among those that do, in either byte order.
//!
//! ```text
//! cargo run --example keymap -- ORDER       l or B; to the display $DISPLAY
//! ```
//!
//! A KeymapNotify has key bits where other packets have their number, whether the server made it (code 11) or
//! SendEvent did (139). A window gets both: one as it gets the focus, and several by SendEvent, with bits that
//! as a number would be the last read's, near it or far from it. Each must have the number of the packet before
//! it, and the event that is sent behind it that of its own request.

#[allow(dead_code)]
#[path = "../shared/display.rs"]
mod display;
#[allow(dead_code)]
#[path = "../shared/wire.rs"]
mod wire;

use std::io;
use std::process::{exit, ExitCode};

use display::{display_name, ended, socket_path, Display};
use wire::{first_screen, get16, get32, named_order, put16};
use xiengmado::PacketClass::{self, Event, SentEvent};
use xiengmado::{ByteOrder, SequenceNumber};

const CREATE_WINDOW: u8 = 1;
const MAP_WINDOW: u8 = 8;
const SEND_EVENT: u8 = 25;
const SET_INPUT_FOCUS: u8 = 42;
const NO_OPERATION: u8 = 127;

const FOCUS_IN: u8 = 9;
const KEYMAP_NOTIFY: u8 = 11;
const CLIENT_MESSAGE: u8 = 33;

/// A window's value list: the mask of its events, which are KeymapState and FocusChange.
const EVENT_MASK: u32 = 0x800;
const EVENTS: u32 = 0x4000 | 0x20_0000;

/// Requests before the first event, so that numbers are past 16 bits.
const BEFORE: u64 = 66_000;

/// Makes a window and gives it the focus: the number of the request, of which the server tells by two events.
fn focus(display: &mut Display, window: u32, root: u32) -> io::Result<SequenceNumber> {
    let request = display.request(CREATE_WINDOW, 0).card32(window);
    let request = request.card32(root).pairs(&[(0, 0), (9, 9), (0, 0)]);
    let request = request.card32(0).card32(EVENT_MASK).card32(EVENTS);
    display.tell(&request.done())?;
    let request = display.request(MAP_WINDOW, 0).card32(window).done();
    display.tell(&request)?;
    let request = display.request(SET_INPUT_FOCUS, 0).card32(window);
    display.tell(&request.card32(0).done())
}

/// Sends an event to the window: the number of the request.
fn send(display: &mut Display, window: u32, event: [u8; 32]) -> io::Result<SequenceNumber> {
    let request = display.request(SEND_EVENT, 0).card32(window).card32(0);
    display.tell(&request.padded(&event).done())
}

/// The next event must be of this class and code, and have this number.
fn comes(
    display: &mut Display,
    class: PacketClass,
    code: u8,
    number: SequenceNumber,
) -> io::Result<Vec<u8>> {
    let (packet, found, told) = display.event()?;
    assert_eq!((told, found), (class, number), "the class and number");
    assert_eq!(told.event_code(&packet), Some(code), "the code");
    Ok(packet)
}

/// A KeymapNotify with these 16 bits, and all others distinct, and behind it a ClientMessage, after a reply.
fn keymap(display: &mut Display, window: u32, bits: u16) -> io::Result<()> {
    let mut keys: [u8; 32] = std::array::from_fn(|place| 200 - place as u8);
    keys[0] = KEYMAP_NOTIFY;
    keys[2..4].copy_from_slice(&put16(display.order, bits));
    let last = display.counts.requests;
    send(display, window, keys)?;
    let mut message = [0; 32];
    (message[0], message[1]) = (CLIENT_MESSAGE, 8);
    let number = send(display, window, message)?;
    let packet = comes(display, SentEvent, KEYMAP_NOTIFY, last)?;
    assert_eq!(packet[1..], keys[1..], "the key bits are as they were sent");
    let packet = comes(display, SentEvent, CLIENT_MESSAGE, number)?;
    let wire = get16(display.order, &packet, 2);
    assert_eq!(wire, number as u16, "the server's own number");
    display.sync()
}

fn run(order: ByteOrder) -> io::Result<()> {
    let path = socket_path(&display_name()?);
    let (mut display, setup, bytes) = Display::open(&path, order, (b"", b""))?;
    let (window, root) = (
        setup.resource_id_base,
        get32(order, first_screen(order, &bytes), 0),
    );
    let nothing = display.request(NO_OPERATION, 0).done();
    for _ in 0..BEFORE {
        display.tell_unchecked(&nothing)?;
    }
    let number = focus(&mut display, window, root)?;
    comes(&mut display, Event, FOCUS_IN, number)?;
    comes(&mut display, Event, KEYMAP_NOTIFY, number)?;
    display.sync()?;
    let steps = [0, 1, 2, 3, 0x100, 0x8000, 0xff00, 0xffff];
    for step in steps {
        let last = display.counts.requests as u16;
        keymap(&mut display, window, last.wrapping_add(step))?;
    }
    let (requests, sent) = (display.counts.requests, steps.len());
    println!("{requests} requests; {sent} KeymapNotify events by SendEvent and one of the server's, each under the last read");
    Ok(())
}

fn main() -> ExitCode {
    let Some(order) = std::env::args().nth(1).and_then(|word| named_order(&word)) else {
        eprintln!("usage: keymap ORDER, l or B, to $DISPLAY");
        exit(2);
    };
    ended("keymap", run(order))
}
