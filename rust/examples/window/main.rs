//! A client of a running X server, through the proved engine: it connects, takes ids, asks, draws,
//! waits for events, makes errors, and sends more requests than 16 bits can number.
//!
//! ```text
//! cargo run --example window [-- [--stay] [DISPLAY or SOCKET] [COOKIE]]
//! cargo run --example window -- --close WINDOW [DISPLAY or SOCKET] [COOKIE]
//! ```
//!
//! With `--stay` a second window stays at the end. It is drawn again whenever a part of it comes to light, and
//! ends the program once it is closed: by a window manager, or with `--close` and its number. When the program
//! is ended (Ctrl-C) the server takes the window away; when the server ends, the program says so.
//!
//! Without a display it connects to `$DISPLAY`. Authority data is not looked for: where the server wants
//! a cookie, give it as hex digits (the last word of `xauth list $DISPLAY`).
//!
//! It says what it did, one line a step, and stops with a failure where something is not as it must be.

#[path = "../shared/display.rs"]
mod display;
mod stay;
#[allow(dead_code)]
#[path = "../shared/wire.rs"]
mod wire;

use std::io;
use std::process::ExitCode;

use display::{display_name, ended, socket_path, Display};
use wire::{first_screen, get16, get32};
use xiengmado::id_allocator::IdAllocator;
use xiengmado::protocol::xc_misc::{
    GetVersionReply, GetVersionRequest, GetXIDListReply, GetXIDListRequest, GetXIDRangeReply,
    GetXIDRangeRequest, X11_EXTENSION_NAME,
};
use xiengmado::x11_utils::{TryParse, X11Error};
use xiengmado::{ByteOrder, DiscardMode, PacketClass, SequenceNumber};

const ORDER: ByteOrder = ByteOrder::NATIVE;

/// Opcodes of the core requests that are sent here.
const CREATE_WINDOW: u8 = 1;
const DESTROY_WINDOW: u8 = 4;
const MAP_WINDOW: u8 = 8;
const GET_GEOMETRY: u8 = 14;
const QUERY_TREE: u8 = 15;
const INTERN_ATOM: u8 = 16;
const CHANGE_PROPERTY: u8 = 18;
const GET_INPUT_FOCUS: u8 = 43;
const CREATE_PIXMAP: u8 = 53;
const CREATE_GC: u8 = 55;
const COPY_AREA: u8 = 62;
const POLY_LINE: u8 = 65;
const POLY_FILL_RECTANGLE: u8 = 70;
const GET_IMAGE: u8 = 73;
const QUERY_EXTENSION: u8 = 98;
const NO_OPERATION: u8 = 127;

/// Codes of events and errors.
const EXPOSE: u8 = 12;
const NO_EXPOSURE: u8 = 14;
const DESTROY_NOTIFY: u8 = 17;
const MAP_NOTIFY: u8 = 19;
const PROPERTY_NOTIFY: u8 = 28;
const BAD_WINDOW: u8 = 3;
const BAD_DRAWABLE: u8 = 9;

/// The predefined atoms STRING and WM_NAME.
const STRING: u32 = 31;
const WM_NAME: u32 = 39;

/// Exposure, StructureNotify and PropertyChange.
const EVENT_MASK: u32 = 0x8000 | 0x2_0000 | 0x40_0000;

const WIDTH: u16 = 240;
const HEIGHT: u16 = 160;
const BURST: u64 = 140_000;

/// What is needed of the first screen of the setup.
struct Screen {
    root: u32,
    white: u32,
    black: u32,
    width: u16,
    height: u16,
    depth: u8,
}

fn screen(setup: &[u8]) -> Screen {
    let screen = first_screen(ORDER, setup);
    Screen {
        root: get32(ORDER, screen, 0),
        white: get32(ORDER, screen, 8),
        black: get32(ORDER, screen, 12),
        width: get16(ORDER, screen, 20),
        height: get16(ORDER, screen, 22),
        depth: screen[38],
    }
}

/// The display, its ids and its screen.
struct Client {
    display: Display,
    ids: IdAllocator,
    screen: Screen,
    base: u32,
    mask: u32,
}

fn connect(path: &str, cookie: &[u8]) -> io::Result<Client> {
    let name: &[u8] = match cookie {
        [] => b"",
        _ => b"MIT-MAGIC-COOKIE-1",
    };
    let (display, setup, bytes) = Display::open(path, ORDER, (name, cookie))?;
    let (base, mask) = (setup.resource_id_base, setup.resource_id_mask);
    let (major, minor) = (setup.protocol_major_version, setup.protocol_minor_version);
    let vendor = String::from_utf8_lossy(&setup.vendor);
    let release = setup.release_number;
    println!("connected to X {major}.{minor}, {vendor}, release {release}");
    println!("ids: base {base:#x}, mask {mask:#x}");
    let screen = screen(&bytes);
    let (root, depth) = (screen.root, screen.depth);
    let (width, height) = (screen.width, screen.height);
    println!("screen: root {root:#x}, {width} x {height}, depth {depth}");
    let ids = IdAllocator::new(base, mask).map_err(io::Error::other)?;
    Ok(Client {
        display,
        ids,
        screen,
        base,
        mask,
    })
}

impl Client {
    fn id(&mut self) -> u32 {
        let id = self.ids.generate_id().expect("ids are left");
        assert_eq!(id & !self.mask, self.base, "the id is one of this client's");
        id
    }

    /// Sends a request and waits for its reply.
    fn reply(&mut self, bytes: &[u8]) -> io::Result<(Vec<u8>, SequenceNumber)> {
        let number = self.display.ask(bytes)?;
        Ok((self.display.reply(number)?, number))
    }

    /// Waits for an event of this code; other events are passed over.
    fn event(&mut self, code: u8) -> io::Result<(Vec<u8>, SequenceNumber)> {
        loop {
            let (event, number, class) = self.display.event()?;
            if class.event_code(&event) == Some(code) {
                return Ok((event, number));
            }
            assert_ne!(class, PacketClass::Error, "no error is on the way");
        }
    }

    /// Waits for an error that nobody checks; events are passed over.
    fn error(&mut self) -> io::Result<(Vec<u8>, SequenceNumber)> {
        loop {
            let (packet, number, class) = self.display.event()?;
            if class == PacketClass::Error {
                return Ok((packet, number));
            }
        }
    }

    /// More ids from the server, by the extension XC-MISC.
    fn more_ids(&mut self) -> io::Result<()> {
        let name = X11_EXTENSION_NAME.as_bytes();
        let request = self.display.request(QUERY_EXTENSION, 0);
        let request = request.card16(name.len() as u16).card16(0).padded(name);
        let (reply, number) = self.reply(&request.done())?;
        if reply[8] == 0 {
            println!("{number}: the server has no XC-MISC");
            return Ok(());
        }
        let opcode = reply[9];
        println!("{number}: QueryExtension says that XC-MISC has opcode {opcode}");
        let wanted = GetVersionRequest {
            client_major_version: 1,
            client_minor_version: 1,
        };
        let (reply, number) = self.reply(&wanted.serialize(opcode).0[0])?;
        let (version, _) = GetVersionReply::try_parse(&reply).map_err(io::Error::other)?;
        let (major, minor) = (version.server_major_version, version.server_minor_version);
        println!("{number}: XC-MISC GetVersion says {major}.{minor}");
        self.id_list(opcode)?;
        self.id_range(opcode)
    }

    fn id_list(&mut self, opcode: u8) -> io::Result<()> {
        let wanted = GetXIDListRequest { count: 3 };
        let (reply, number) = self.reply(&wanted.serialize(opcode).0[0])?;
        let (list, _) = GetXIDListReply::try_parse(&reply).map_err(io::Error::other)?;
        let ours = |id: &u32| id & !self.mask == self.base;
        assert!(list.ids.iter().all(ours), "the ids are this client's");
        let ids: Vec<_> = list.ids.iter().map(|id| format!("{id:#x}")).collect();
        println!("{number}: XC-MISC GetXIDList gives {}", ids.join(", "));
        Ok(())
    }

    /// From here on the allocator gives the ids of a range of the server.
    fn id_range(&mut self, opcode: u8) -> io::Result<()> {
        let (reply, number) = self.reply(&GetXIDRangeRequest.serialize(opcode).0[0])?;
        let (range, _) = GetXIDRangeReply::try_parse(&reply).map_err(io::Error::other)?;
        let (start, count) = (range.start_id, range.count);
        println!("{number}: XC-MISC GetXIDRange gives {count} ids from {start:#x}");
        let updated = self.ids.update_xid_range(&range);
        updated.map_err(io::Error::other)
    }

    /// Makes a window, names it and maps it; its id. No window manager has a say in it.
    fn window(&mut self) -> io::Result<u32> {
        let window = self.id();
        let (background, override_redirect, event_mask) = (0x2, 0x200, 0x800);
        let request = self.display.request(CREATE_WINDOW, 0);
        let request = request.card32(window).card32(self.screen.root);
        let request = request.pairs(&[(20, 20), (WIDTH as i16, HEIGHT as i16), (0, 1)]);
        let request = request.card32(0);
        let request = request.card32(background | override_redirect | event_mask);
        let request = request.card32(self.screen.white);
        let request = request.card32(1).card32(EVENT_MASK);
        let created = self.display.tell(&request.done())?;
        assert_eq!(self.display.check(created)?, None);
        println!("{created}: CreateWindow {window:#x}, checked: no error");
        self.property(window, WM_NAME, b"Xiengmado")?;
        let request = self.display.request(MAP_WINDOW, 0).card32(window);
        let mapped = self.display.tell_unchecked(&request.done())?;
        let (_, number) = self.event(MAP_NOTIFY)?;
        assert_eq!(number, mapped, "the event's number is the request's");
        println!("{mapped}: MapWindow; its MapNotify event has number {number}");
        while get16(ORDER, &self.event(EXPOSE)?.0, 16) > 0 {}
        println!("        the last Expose event came");
        Ok(window)
    }

    /// Changes a property. The server sends the event while it works on the request, so its number is
    /// the request's.
    fn property(&mut self, window: u32, name: u32, text: &[u8]) -> io::Result<()> {
        let request = self.display.request(CHANGE_PROPERTY, 0);
        let request = request.card32(window).card32(name).card32(STRING);
        let format = [8];
        let request = request.padded(&format);
        let request = request.card32(text.len() as u32).padded(text);
        let changed = self.display.tell_unchecked(&request.done())?;
        let (event, number) = self.event(PROPERTY_NOTIFY)?;
        assert_eq!(number, changed, "the event's number is the request's");
        let named = get32(ORDER, &event, 8);
        assert_eq!(named, name, "the event names the property");
        println!("{changed}: ChangeProperty; its PropertyNotify event has number {number}");
        Ok(())
    }

    fn gc(&mut self, drawable: u32, foreground: u32) -> io::Result<u32> {
        let gc = self.id();
        let request = self.display.request(CREATE_GC, 0);
        let request = request.card32(gc).card32(drawable);
        let request = request.card32(0x4).card32(foreground);
        self.display.tell_unchecked(&request.done())?;
        Ok(gc)
    }

    fn rectangle(&mut self, drawable: u32, gc: u32, corners: [(i16, i16); 2]) -> io::Result<()> {
        let request = self.display.request(POLY_FILL_RECTANGLE, 0);
        let request = request.card32(drawable).card32(gc).pairs(&corners);
        self.display.tell_unchecked(&request.done())?;
        Ok(())
    }

    /// Draws into a pixmap, reads a part of it back, and copies it to the window.
    fn draw(&mut self, window: u32) -> io::Result<()> {
        let pixmap = self.id();
        let size = (WIDTH as i16, HEIGHT as i16);
        let request = self.display.request(CREATE_PIXMAP, self.screen.depth);
        let request = request.card32(pixmap).card32(window).pairs(&[size]);
        self.display.tell_unchecked(&request.done())?;
        let white = self.gc(pixmap, self.screen.white)?;
        let black = self.gc(pixmap, self.screen.black)?;
        self.rectangle(pixmap, white, [(0, 0), size])?;
        self.rectangle(pixmap, black, [(8, 8), (16, 16)])?;
        let request = self.display.request(POLY_LINE, 0);
        let request = request.card32(pixmap).card32(black).pairs(&rose());
        let drawn = self.display.tell_unchecked(&request.done())?;
        println!("{drawn}: PolyLine into a pixmap");
        let inside = self.image(pixmap, 10, 10)?;
        let outside = self.image(pixmap, 0, 0)?;
        assert_ne!(inside, outside, "the square differs from what is around it");
        let request = self.display.request(COPY_AREA, 0);
        let request = request.card32(pixmap).card32(window).card32(black);
        let request = request.pairs(&[(0, 0), (0, 0), size]);
        let copied = self.display.tell_unchecked(&request.done())?;
        let (_, number) = self.event(NO_EXPOSURE)?;
        assert_eq!(number, copied, "the event's number is the request's");
        println!("{copied}: CopyArea to the window; its NoExposure event has number {number}");
        Ok(())
    }

    /// The bytes of four by four pixels.
    fn image(&mut self, drawable: u32, x: i16, y: i16) -> io::Result<Vec<u8>> {
        let request = self.display.request(GET_IMAGE, 2).card32(drawable);
        let request = request.pairs(&[(x, y), (4, 4)]).card32(u32::MAX);
        let (reply, number) = self.reply(&request.done())?;
        println!("{number}: GetImage at {x}, {y} has {} bytes", reply.len());
        Ok(reply[32..].to_vec())
    }

    /// Asks three things at once, and takes the answers by their numbers, the last one first.
    fn ask_three(&mut self, window: u32) -> io::Result<()> {
        let geometry = self.display.request(GET_GEOMETRY, 0).card32(window).done();
        let tree = self.display.request(QUERY_TREE, 0).card32(window).done();
        let name = b"XIENGMADO";
        let atom = self.display.request(INTERN_ATOM, 0);
        let atom = atom.card16(name.len() as u16).card16(0).padded(name).done();
        let geometry = self.display.ask(&geometry)?;
        let tree = self.display.ask(&tree)?;
        let atom = self.display.ask(&atom)?;
        let answer = self.display.reply(atom)?;
        let name = get32(ORDER, &answer, 8);
        println!("{atom}: InternAtom, taken first: {name}");
        let answer = self.display.reply(tree)?;
        let (root, parent) = (get32(ORDER, &answer, 8), get32(ORDER, &answer, 12));
        assert_eq!(root, self.screen.root);
        println!("{tree}: QueryTree, taken second: the parent is {parent:#x}");
        let answer = self.display.reply(geometry)?;
        let size = (get16(ORDER, &answer, 16), get16(ORDER, &answer, 18));
        assert_eq!(size, (WIDTH, HEIGHT), "the size is what was asked for");
        println!("{geometry}: GetGeometry, taken last: {size:?}");
        self.property(window, name, b"by the atom of the reply")
    }

    /// Errors, wherever they may go: to who asked, to who checks, to the events, and nowhere.
    fn errors(&mut self) -> io::Result<()> {
        let nothing = self.id();
        let ask = self.display.request(GET_GEOMETRY, 0).card32(nothing).done();
        let tell = self.display.request(MAP_WINDOW, 0).card32(nothing).done();
        let asked = self.display.ask(&ask)?;
        let (error, class) = self.display.answer(asked)?;
        assert_eq!(class, PacketClass::Error);
        is_error(&error, BAD_DRAWABLE, GET_GEOMETRY, nothing);
        println!("{asked}: GetGeometry of no window: the answer is a Drawable error");
        let told = self.display.tell(&tell)?;
        let error = self.display.check(told)?.expect("an error");
        is_error(&error, BAD_WINDOW, MAP_WINDOW, nothing);
        println!("{told}: MapWindow of no window, checked: a Window error");
        let told = self.display.tell_unchecked(&tell)?;
        let (error, number) = self.error()?;
        is_error(&error, BAD_WINDOW, MAP_WINDOW, nothing);
        assert_eq!(number, told);
        println!("{told}: MapWindow of no window, unchecked: the error came with the events");
        self.unwanted(&ask)
    }

    /// Answers that nobody wants are dropped.
    fn unwanted(&mut self, failing: &[u8]) -> io::Result<()> {
        let focus = self.display.request(GET_INPUT_FOCUS, 0).done();
        let replied = self.display.ask(&focus)?;
        let failed = self.display.ask(failing)?;
        let connection = &mut self.display.connection;
        connection.discard_reply(replied, DiscardMode::DiscardReply);
        connection.discard_reply(failed, DiscardMode::DiscardReplyAndError);
        self.display.sync()?;
        let connection = &mut self.display.connection;
        while let Some((.., class)) = connection.poll_for_event_with_class() {
            assert_ne!(class, PacketClass::Error, "the error was dropped");
        }
        for number in [replied, failed] {
            let answer = connection.poll_for_reply_or_error(number);
            assert!(answer.is_none(), "the answer was dropped");
        }
        println!("{replied}, {failed}: a reply and an error came and were dropped, as asked");
        Ok(())
    }

    /// More requests than 16 bits can number, none with a reply but the syncs that the engine wants.
    fn burst(&mut self) -> io::Result<()> {
        let nothing = self.display.request(NO_OPERATION, 0).done();
        let before = self.display.counts.syncs;
        let mut last = 0;
        for _ in 0..BURST {
            last = self.display.tell_unchecked(&nothing)?;
        }
        let syncs = self.display.counts.syncs - before;
        assert!(syncs >= BURST / 65_535, "a sync was due");
        println!("{last}: the last of {BURST} NoOperation requests; a sync was due {syncs} times");
        Ok(())
    }

    fn end(&mut self, window: u32) -> io::Result<()> {
        let request = self.display.request(DESTROY_WINDOW, 0).card32(window);
        let destroyed = self.display.tell_unchecked(&request.done())?;
        let (_, number) = self.event(DESTROY_NOTIFY)?;
        assert_eq!(number, destroyed, "the event's number is the request's");
        println!("{destroyed}: DestroyWindow; its DestroyNotify event has number {number}");
        self.display.sync()
    }
}

/// A curve with seven petals.
fn rose() -> Vec<(i16, i16)> {
    let (x, y) = (f64::from(WIDTH) / 2.0, f64::from(HEIGHT) / 2.0);
    let point = |i: i32| {
        let angle = f64::from(i) * std::f64::consts::PI / 360.0;
        let radius = (y - 8.0) * (7.0 * angle).cos();
        let place = (x + radius * angle.cos(), y + radius * angle.sin());
        (place.0 as i16, place.1 as i16)
    };
    (0..=720).map(point).collect()
}

/// The packet is an error of this code, for the request with this opcode, and names the bad value.
fn is_error(packet: &[u8], code: u8, opcode: u8, value: u32) {
    let error = X11Error::try_parse(packet).expect("an error packet");
    let fields = (error.error_code, error.major_opcode, error.bad_value);
    assert_eq!(fields, (code, opcode, value));
}

fn run(mut client: Client, stay: bool) -> io::Result<()> {
    client.more_ids()?;
    let window = client.window()?;
    client.draw(window)?;
    client.ask_three(window)?;
    client.errors()?;
    client.burst()?;
    client.property(window, WM_NAME, b"Xiengmado, past 65,536")?;
    client.errors()?;
    client.end(window)?;
    if stay {
        client.stay()?;
    }
    let counts = &client.display.counts;
    let answers = counts.replies + counts.errors + counts.events;
    let (requests, replies) = (counts.requests, counts.replies);
    let (errors, events) = (counts.errors, counts.events);
    println!("{requests} requests; {answers} packets: {replies} replies, {errors} errors, {events} events");
    Ok(())
}

/// The bytes of hex digits.
fn bytes_of_hex(digits: &str) -> Option<Vec<u8>> {
    let pair = |at: usize| u8::from_str_radix(digits.get(at..at + 2)?, 16).ok();
    (0..digits.len()).step_by(2).map(pair).collect()
}

/// The number of a window, as it is printed.
fn window_of(word: &str) -> io::Result<u32> {
    let number = u32::from_str_radix(word.trim_start_matches("0x"), 16);
    number.map_err(|_| io::Error::other("the window is no number"))
}

/// Does what the words ask for.
fn start(mut words: Vec<String>) -> io::Result<()> {
    let close = words.len() > 1 && words[0] == "--close";
    let window = close.then(|| window_of(&words.remove(1)));
    let stay = words.first().is_some_and(|word| word == "--stay");
    if close || stay {
        words.remove(0);
    }
    let display = words.first().cloned().map_or_else(display_name, Ok)?;
    let cookie = bytes_of_hex(words.get(1).map_or("", String::as_str));
    let cookie = cookie.ok_or_else(|| io::Error::other("the cookie is not in hex digits"))?;
    let mut client = connect(&socket_path(&display), &cookie)?;
    match window {
        Some(window) => client.close(window?),
        None => run(client, stay),
    }
}

fn main() -> ExitCode {
    ended("window", start(std::env::args().skip(1).collect()))
}
