//! The rows of the table.

use crate::exports;
use crate::measure::{self, Row, CRATE, EXPORTS, RUST};
use crate::programs;
use crate::sides::{Blind, CrateSetup, Frames, Handshake, Ids, Log, RustSetup};
use crate::work::{self, Burst, Held, OneByOne, RoundTrips, Sends, Soak};

/// No slower than the Rust; twice as fast; a send, which tests everything that it is lent, may take
/// three times as long.
const SAME: Option<f64> = Some(1.0);
const TWICE: Option<f64> = Some(2.0);
const THIRD: Option<f64> = Some(0.33);

/// A row of a function that every side is given to.
macro_rules! three {
    ($name:expr, $per:expr, $goal:expr, $work:path, ($($more:expr),*),
     $rust:expr, $ours:expr, $exports:expr) => {{
        let (mut rust, mut ours, mut exports) = ($rust, $ours, $exports);
        let mut logs = [Log::default(), Log::default(), Log::default()];
        $work(&mut rust, $($more,)* &mut logs[0]);
        $work(&mut ours, $($more,)* &mut logs[1]);
        $work(&mut exports, $($more,)* &mut logs[2]);
        measure::compare($name, &logs);
        measure::row($name, "ns", $per as f64, $goal, vec![
            (RUST, Box::new(|| $work(&mut rust, $($more,)* &mut Blind))),
            (CRATE, Box::new(|| $work(&mut ours, $($more,)* &mut Blind))),
            (EXPORTS, Box::new(|| $work(&mut exports, $($more,)* &mut Blind))),
        ])
    }};
}

type Make = Box<dyn Fn(&str) -> Row>;

/// All rows whose name has a part.
pub fn all(part: &str) -> Vec<Row> {
    let mut rows = framing();
    rows.extend(connections());
    rows.extend(leaves());
    let mut made: Vec<Row> = rows
        .into_iter()
        .filter(|(name, _)| measure::named(name, part))
        .map(|(name, make)| make(name))
        .collect();
    made.extend(crate::batch::rows(part));
    made.extend(programs::rows(part));
    made
}

fn frame(goal: Option<f64>, stream: Vec<u8>, packets: usize) -> Make {
    Box::new(move |name| {
        three!(
            name,
            packets,
            goal,
            work::frame,
            (&stream),
            original::packet_reader::PacketReader::fresh(),
            xiengmado::packet_reader::PacketReader::fresh(),
            exports::Reader::fresh()
        )
    })
}

fn framing() -> Vec<(&'static str, Make)> {
    let stream = |packet: &[u8], n: usize| packet.repeat(n);
    vec![
        (
            "framing, events of 32 bytes",
            frame(TWICE, stream(&work::packet(2, 1), 1024), 1024),
        ),
        (
            "framing, replies of 1 KiB",
            frame(TWICE, stream(&work::long_reply(1024, 1), 256), 256),
        ),
        (
            "framing, replies of 64 KiB",
            frame(TWICE, stream(&work::long_reply(65_536, 1), 8), 8),
        ),
    ]
}

fn client(goal: Option<f64>, work: impl work::Work + 'static) -> Make {
    Box::new(move |name| measure::work(name, goal, &work))
}

fn sends(kind: u8, connections: usize, each: usize) -> Sends {
    Sends {
        kind,
        connections,
        each,
    }
}

fn one(code: u8, beside: usize, turns: usize) -> OneByOne {
    OneByOne {
        code,
        beside,
        turns,
    }
}

fn connections() -> Vec<(&'static str, Make)> {
    vec![
        (
            "send without reply, up to 16 outstanding",
            client(THIRD, sends(0, 64, 15)),
        ),
        (
            "send with reply, up to 16 outstanding",
            client(THIRD, sends(1, 64, 15)),
        ),
        (
            "send without reply, up to 1,000 outstanding",
            client(None, sends(0, 1, 999)),
        ),
        (
            "send without reply, up to 10,000 outstanding",
            client(None, sends(0, 1, 9_999)),
        ),
        ("event in and out", client(SAME, one(2, 0, 1024))),
        ("event in and out, 16 held", client(SAME, one(2, 15, 1024))),
        (
            "event in and out, 10,000 held",
            client(None, one(2, 9_999, 8)),
        ),
        ("reply in and out", client(SAME, one(1, 0, 1024))),
        (
            "reply in and out, 16 events held",
            client(SAME, one(1, 15, 1024)),
        ),
        (
            "request, its reply in and out",
            client(SAME, RoundTrips { turns: 1024 }),
        ),
        (
            "100 events in, then out",
            client(None, Burst { events: 100 }),
        ),
        (
            "10,000 events in, then out",
            client(None, Burst { events: 10_000 }),
        ),
        (
            "1,000 held replies, oldest first",
            client(None, Held::Oldest(1000)),
        ),
        (
            "1,000 held replies, newest first",
            client(None, Held::Newest(1000)),
        ),
        (
            "16 held replies, oldest first",
            client(SAME, Held::Oldest(16)),
        ),
        (
            "16 held replies, newest first",
            client(SAME, Held::Newest(16)),
        ),
        (
            "100 held replies discarded",
            client(None, Held::Discard(100)),
        ),
        (
            "a million mixed calls",
            client(SAME, Soak::new(1_000_000, 1)),
        ),
    ]
}

fn setup() -> Vec<u8> {
    let file = concat!(env!("CARGO_MANIFEST_DIR"), "/../../tests/setups/l.setup");
    std::fs::read(file).expect("the setup of a server is there")
}

fn leaves() -> Vec<(&'static str, Make)> {
    let reply = setup();
    let shake: Make = Box::new(move |name| {
        three!(
            name,
            16,
            SAME,
            work::shake,
            (&reply, 16),
            RustSetup::fresh(),
            CrateSetup::fresh(),
            exports::Setup::fresh()
        )
    });
    vec![
        ("handshake, setup of 9,556 bytes", shake),
        ("id generated", ids(false)),
        ("range of ids taken, and one generated", ids(true)),
    ]
}

fn ids(ranges: bool) -> Make {
    fn work<I: Ids>(
        ids: &mut I,
        ranges: bool,
        see: &mut impl crate::sides::See,
    ) -> std::time::Duration {
        match ranges {
            false => work::ids(ids, 1024, see),
            true => work::ranges(ids, 1024, see),
        }
    }
    let (base, mask) = (0x20_0000, 0x1f_ffff);
    Box::new(move |name| {
        three!(
            name,
            1024,
            SAME,
            work,
            (ranges),
            original::id_allocator::IdAllocator::fresh(base, mask),
            xiengmado::id_allocator::IdAllocator::fresh(base, mask),
            exports::Allocator::fresh(base, mask)
        )
    })
}
