//! A long reply: the picture of the whole screen, which is over 65,536 bytes on any but the smallest.
//!
//! ```text
//! cargo run --example image       of the display $DISPLAY
//! ```
//!
//! It fills each row of the root window with a colour of its own, then asks for the picture and, behind that,
//! for the input focus. It takes the second reply first, while the first waits beside the engine, and
//! compares every pixel. What is drawn stays until the windows are drawn anew.

#[allow(dead_code)]
#[path = "../shared/display.rs"]
mod display;
#[allow(dead_code)]
#[path = "../shared/wire.rs"]
mod wire;

use std::io;
use std::process::ExitCode;

use display::{display_name, ended, socket_path, Display};
use wire::{first_screen, get16, get32};
use xiengmado::ByteOrder;

const ORDER: ByteOrder = ByteOrder::NATIVE;

const GET_INPUT_FOCUS: u8 = 43;
const CREATE_GC: u8 = 55;
const CHANGE_GC: u8 = 56;
const POLY_FILL_RECTANGLE: u8 = 70;
const GET_IMAGE: u8 = 73;

/// A value list's bit for a graphics context's foreground.
const FOREGROUND: u32 = 4;
const Z_PIXMAP: u8 = 2;

/// The root of the first screen, its width and its height.
fn root(setup: &[u8]) -> (u32, u16, u16) {
    let screen = first_screen(ORDER, setup);
    assert!(screen[38] >= 24, "the screen has 24 bits a pixel");
    (
        get32(ORDER, screen, 0),
        get16(ORDER, screen, 20),
        get16(ORDER, screen, 22),
    )
}

/// The colour of a row, which no other row has.
fn colour(row: u16) -> u32 {
    (u32::from(row) * 0x01_03_07) & 0xff_ffff
}

/// Fills each row with its colour.
fn draw(display: &mut Display, gc: u32, root: u32, width: u16, height: u16) -> io::Result<()> {
    let request = display.request(CREATE_GC, 0).card32(gc).card32(root);
    display.tell(&request.card32(0).done())?;
    for row in 0..height {
        let request = display.request(CHANGE_GC, 0).card32(gc);
        let request = request.card32(FOREGROUND).card32(colour(row));
        display.tell(&request.done())?;
        let request = display.request(POLY_FILL_RECTANGLE, 0);
        let request = request.card32(root).card32(gc);
        let request = request.pairs(&[(0, row as i16), (width as i16, 1)]);
        display.tell(&request.done())?;
    }
    Ok(())
}

/// Every pixel has the colour of its row; the server's own bits above 24 don't count.
fn compare(image: &[u8], order: ByteOrder, width: u16) {
    let rows = image.chunks_exact(4 * usize::from(width));
    for (row, pixels) in (0..).zip(rows) {
        let mut pixels = pixels.chunks_exact(4);
        let alike = pixels.all(|pixel| get32(order, pixel, 0) & 0xff_ffff == colour(row));
        assert!(alike, "row {row} has its colour");
    }
}

fn run() -> io::Result<()> {
    let path = socket_path(&display_name()?);
    let (mut display, setup, bytes) = Display::open(&path, ORDER, (b"", b""))?;
    let (root, width, height) = root(&bytes);
    draw(&mut display, setup.resource_id_base, root, width, height)?;
    let request = display.request(GET_IMAGE, Z_PIXMAP).card32(root);
    let request = request.pairs(&[(0, 0), (width as i16, height as i16)]);
    let picture = display.ask(&request.card32(u32::MAX).done())?;
    let focus = display.request(GET_INPUT_FOCUS, 0).done();
    let focus = display.ask(&focus)?;
    let reply = display.reply(focus)?;
    assert_eq!(reply.len(), 32, "a short reply behind it");
    let reply = display.reply(picture)?;
    let pixels = usize::from(width) * usize::from(height);
    assert_eq!(reply.len(), 32 + 4 * pixels, "32 bits a pixel");
    let order = match setup.image_byte_order {
        0 => ByteOrder::Little,
        _ => ByteOrder::Big,
    };
    compare(&reply[32..], order, width);
    let length = reply.len();
    println!(
        "{picture}: GetImage of {width} x {height} has {length} bytes, each row as it was drawn"
    );
    Ok(())
}

fn main() -> ExitCode {
    ended("image", run())
}
