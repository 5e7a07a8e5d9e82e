//! Rows of the calls that make many steps behind one test: `send_requests`, `enqueue_packets` and
//! `poll_for_events`. The Rust has no such calls: beside them it makes its single ones, and takes the
//! bytes through its packet reader.

use std::time::Duration;

use crate::exports::Batched;
use crate::measure::{self, Row, RUST};
use crate::sides::{Blind, Client, Frames, Log, See};
use crate::work::{packet, timed};

/// A connection that takes many at once.
pub trait Many {
    fn fresh() -> Self;
    /// Requests of these kinds.
    fn sends(&mut self, kinds: &[u8], see: &mut impl See);
    /// The bytes of whole packets.
    fn feed(&mut self, bytes: &[u8]);
    /// All events that are held.
    fn events(&mut self, see: &mut impl See);
}

/// The Rust: its reader and its connection.
struct Rust {
    reader: original::packet_reader::PacketReader,
    connection: original::connection::Connection,
}

impl Many for Rust {
    fn fresh() -> Self {
        Rust {
            reader: Frames::fresh(),
            connection: Client::fresh(),
        }
    }

    fn sends(&mut self, kinds: &[u8], see: &mut impl See) {
        let mut last = 0;
        for &kind in kinds {
            last = self.connection.send(kind).unwrap_or(0);
        }
        see.number(last);
    }

    fn feed(&mut self, mut bytes: &[u8]) {
        while !bytes.is_empty() {
            let part = self.reader.buffer();
            let n = part.len().min(bytes.len());
            part[..n].copy_from_slice(&bytes[..n]);
            bytes = &bytes[n..];
            if let Some(packet) = self.reader.advance(n) {
                self.connection.enqueue_packet(packet);
            }
        }
    }

    fn events(&mut self, see: &mut impl See) {
        while self.connection.event(see) {}
    }
}

/// So many requests; then one more, and an event of its number that clears the others away.
fn sends<C: Many>(c: &mut C, on: &mut u64, kinds: &[u8], see: &mut impl See) -> Duration {
    let time = timed(|| c.sends(kinds, see));
    *on += kinds.len() as u64 + 1;
    c.sends(&[1], see);
    c.feed(&packet(2, *on));
    c.events(see);
    time
}

/// So many events in and out, all with the number last read: 0, so that nothing is outstanding.
fn burst<C: Many>(c: &mut C, on: &mut u64, events: usize, see: &mut impl See) -> Duration {
    let bytes = packet(2, *on).repeat(events);
    timed(|| {
        c.feed(&bytes);
        c.events(see);
    })
}

/// One row: the sides agree, and are timed by turns.
macro_rules! row {
    ($name:expr, $per:expr, $work:ident, $more:expr) => {{
        let (mut rust, mut ours) = (Rust::fresh(), Batched::fresh());
        let (mut at, mut on) = (0, 0);
        let mut logs = [Log::default(), Log::default()];
        $work(&mut rust, &mut at, $more, &mut logs[0]);
        $work(&mut ours, &mut on, $more, &mut logs[1]);
        measure::compare($name, &logs);
        drop(logs);
        measure::row(
            $name,
            "ns",
            $per as f64,
            Some(2.0),
            vec![
                (
                    RUST,
                    Box::new(|| $work(&mut rust, &mut at, $more, &mut Blind)),
                ),
                (
                    "batch",
                    Box::new(|| $work(&mut ours, &mut on, $more, &mut Blind)),
                ),
            ],
        )
    }};
}

/// The rows whose name has a part.
pub fn rows(part: &str) -> Vec<Row> {
    let mut rows = Vec::new();
    for n in [16, 100, 1_000, 10_000] {
        let name = format!("{n} requests at once");
        if measure::named(&name, part) {
            let kinds = vec![0; n];
            rows.push(row!(&name, n, sends, &kinds));
        }
    }
    for n in [16, 100, 1_000, 10_000, 100_000, 300_000] {
        let name = format!("{n} events in and out at once");
        if measure::named(&name, part) {
            rows.push(row!(&name, n, burst, n));
        }
    }
    rows
}
