//! Savepoints of small and large clients, timed beside a copy of the same bytes (docs/BENCH.md; `make
//! bench-savepoints`). First each client is restored in other rooms and saved again: where the bytes
//! differ this exits with 1.

#[path = "../spread.rs"]
mod spread;

use std::hint::black_box;
use std::time::Instant;

use spread::{spread, Spread};
use xiengmado::engine::Engine;
use xiengmado::id_allocator::IdAllocator;
use xiengmado::packet_reader::PacketReader;
use xiengmado::ByteOrder;

const REQUESTS: usize = 65_536;
const STORE: usize = 16_777_216;

/// How many turns a row has, and about how many nanoseconds a turn of a small one.
const TURNS: usize = 101;
const TURN: u128 = 100_000;

type Client = (Engine, PacketReader, IdAllocator);

fn fresh() -> Client {
    (
        Engine::new(ByteOrder::Little, REQUESTS, STORE).expect("rooms in range"),
        PacketReader::with_buffer(ByteOrder::Little, 65_536).expect("a buffer in range"),
        IdAllocator::new(0x20_0000, 0x1f_ffff).expect("a mask"),
    )
}

/// A packet with so many bytes: a reply, an event, or where it is longer a generic event.
fn packet(reply: bool, size: usize) -> Vec<u8> {
    let code = match (reply, size) {
        (true, _) => 1,
        (false, 32) => 2,
        (false, _) => 35,
    };
    let units = (size as u32 - 32) / 4;
    let mut bytes = [&[code, 0x5a, 0, 0], &units.to_le_bytes()[..]].concat();
    bytes.resize(size, 0x5a);
    bytes
}

/// A client that holds so many packets, every so many of them a reply.
fn holding(count: usize, size: usize, replies: usize) -> Client {
    let mut client = fresh();
    let run: Vec<u8> = (1..=count)
        .flat_map(|n| packet(replies > 0 && n % replies == 0, size))
        .collect();
    let fed = client.0.enqueue_packets(&run).expect("the client is whole");
    assert_eq!(fed.packets, count, "all were taken");
    client
}

/// The time of one call, the mean of as many as a turn takes.
fn timed(calls: u32, mut call: impl FnMut()) -> f64 {
    let start = Instant::now();
    for _ in 0..calls {
        call();
    }
    start.elapsed().as_nanos() as f64 / f64::from(calls)
}

/// Ratios of two lists, turn by turn.
fn ratio(times: &[f64], copies: &[f64]) -> Spread {
    Spread::of(times.iter().zip(copies).map(|(t, c)| t / c).collect())
}

fn row(name: &str, records: usize, (engine, reader, ids): &Client) {
    let bytes = engine.save(reader, ids).expect("no descriptor is inside");
    let (mut other, mut buffer, mut numbers) = fresh();
    let mut out = vec![0; bytes.len()];
    other
        .restore_into(&bytes, &mut buffer, &mut numbers)
        .expect("a savepoint");
    other
        .save_into(&buffer, &numbers, &mut out)
        .expect("it is as long");
    if out != bytes {
        println!("{name}: DIFFERENCE between what was saved and what was restored");
        std::process::exit(1);
    }
    let mut save = || {
        let saved = engine.save_into(reader, ids, black_box(&mut out));
        black_box(saved).expect("it is as long");
    };
    let one = timed(1, &mut save) as u128;
    let calls = (TURN / one.max(1)).clamp(1, 1000) as u32;
    let mut copied = vec![1; bytes.len()];
    let [mut saves, mut restores, mut copies] = [(); 3].map(|()| Vec::with_capacity(TURNS));
    for _ in 0..TURNS {
        saves.push(timed(calls, &mut save));
        restores.push(timed(calls, || {
            black_box(other.restore_into(black_box(&bytes), &mut buffer, &mut numbers))
                .expect("a savepoint");
        }));
        copies.push(timed(calls, || {
            black_box(&mut copied).copy_from_slice(black_box(&bytes))
        }));
    }
    let each = |times: &[f64]| {
        spread(&Spread::of(
            times.iter().map(|t| t / records as f64).collect(),
        ))
    };
    println!(
        "| {name} | {} | {} | {} | {} | {} | {} |",
        bytes.len(),
        each(&saves),
        each(&restores),
        each(&copies),
        spread(&ratio(&saves, &copies)),
        spread(&ratio(&restores, &copies)),
    );
}

fn main() {
    println!(
        "| client | bytes | save, ns | restore, ns | copy, ns | save / copy | restore / copy |"
    );
    println!("|---|---|---|---|---|---|---|");
    row("idle, the whole call", 1, &fresh());
    row("10,000 held events, each", 10_000, &holding(10_000, 32, 0));
    let small = STORE / 48;
    row(
        "16 MiB of events of 32 bytes, each",
        small,
        &holding(small, 32, 0),
    );
    row(
        "16 MiB, replies and events of 32 bytes by turns, each",
        small,
        &holding(small, 32, 2),
    );
    let large = STORE / (16 + 32_768);
    row(
        "16 MiB, replies and events of 32 KiB by turns, each",
        large,
        &holding(large, 32_768, 2),
    );
}
