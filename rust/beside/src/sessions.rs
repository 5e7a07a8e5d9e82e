//! Whole runs, by kind. Each answers how many calls were compared.

use crate::chance::Chance;
use crate::client::{Both, SENT_KEYMAP};
use crate::connection::ReplyFdKind;
use crate::leaves;
use crate::DiscardMode;

type Kind = fn(&mut Chance) -> u64;
type End = fn(Both, &mut Chance) -> u64;

pub const KINDS: [(&str, Kind); 12] = [
    ("mixed", mixed),
    ("descriptors", descriptors),
    ("same number", same_number),
    ("wraps", wraps),
    ("sync bursts", sync_bursts),
    ("long packets", long_packets),
    ("sent keymaps", sent_keymaps),
    ("packets ahead", packets_ahead),
    ("streams", leaves::streams),
    ("readers", leaves::readers),
    ("handshakes", leaves::handshakes),
    ("ids", leaves::ids),
];

/// What a run is made of: one chance in so many for each call.
struct Weights {
    send: u64,
    fds: u64,
    packet: u64,
    discard: u64,
    poll: u64,
    event: u64,
    /// Of the packets one in so many is over 65,536 bytes.
    long: u64,
}

const MIXED: Weights = Weights {
    send: 6,
    fds: 1,
    packet: 8,
    discard: 2,
    poll: 6,
    event: 3,
    long: 400,
};

const LONG: Weights = Weights {
    discard: 4,
    long: 3,
    ..MIXED
};

fn kind(chance: &mut Chance) -> ReplyFdKind {
    chance.pick(&[
        ReplyFdKind::NoReply,
        ReplyFdKind::NoReply,
        ReplyFdKind::ReplyWithoutFDs,
        ReplyFdKind::ReplyWithFDs,
    ])
}

fn mode(chance: &mut Chance) -> DiscardMode {
    chance.pick(&[DiscardMode::DiscardReply, DiscardMode::DiscardReplyAndError])
}

/// A number that says something about this connection: outstanding, held, at an edge, or any.
fn number(both: &Both, chance: &mut Chance) -> u64 {
    let engine = &both.engine;
    let written = engine.last_sequence_written();
    let read = engine.last_sequence_read();
    match chance.below(8) {
        0 => read,
        1 => written + chance.below(3),
        2 => (written + 1).saturating_sub(chance.below(engine.outstanding_len() as u64 + 2)),
        3 | 4 => {
            let count = engine.records().count() as u64;
            let at = chance.below(count + 1) as usize;
            engine.records().nth(at).map_or(read + 1, |r| r.number)
        }
        5 => chance.next(),
        6 => chance.below(written + 2),
        _ => read.saturating_sub(chance.below(4)),
    }
}

/// More bytes than the engine takes: mostly a few.
pub fn long_size(chance: &mut Chance) -> usize {
    let more = chance.pick(&[4, 4, 4_000, 300_000]);
    65_537 + chance.below(more) as usize
}

pub fn set_number(packet: &mut [u8], number: u64) {
    packet[2..4].copy_from_slice(&(number as u16).to_le_bytes());
}

/// Any number from the last read to the last written.
pub fn sent_number(both: &Both, chance: &mut Chance) -> u64 {
    let read = both.engine.last_sequence_read();
    read + chance.below(both.engine.last_sequence_written() - read + 1)
}

/// A packet of a number that was sent, mostly near the last read; at times one at the edge, where those above the
/// last written are left out. Mostly it claims no more descriptors than wait. One in so many is long.
fn packet(both: &Both, chance: &mut Chance, long: u64) -> Vec<u8> {
    let code = match chance.below(10) {
        0..=3 => 1,
        4 | 5 => 0,
        6 => chance.pick(&[11, 35, 129, 128, 139, 163]),
        _ => chance.next() as u8,
    };
    let size = match chance.below(12) {
        _ if chance.once(long) => long_size(chance),
        0 => 32 + chance.below(200) as usize,
        1 => 36,
        _ => 32,
    };
    let mut bytes = chance.bytes(size);
    bytes[0] = code;
    let waiting = both.engine.waiting().len() as u64;
    bytes[1] = match chance.below(100) {
        0 => chance.next() as u8,
        _ => chance.below(4).min(waiting) as u8,
    };
    let read = both.engine.last_sequence_read();
    let number = match chance.below(16) {
        0 => both.engine.last_sequence_written() + chance.below(3),
        1 => sent_number(both, chance),
        2..=6 => read,
        _ => sent_number(both, chance).min(read + chance.below(6)),
    };
    set_number(&mut bytes, number);
    bytes
}

/// Which call comes next: its place among the weights.
fn chosen(chance: &mut Chance, w: &Weights) -> usize {
    let all = [w.send, w.fds, w.packet, w.discard, w.poll, w.event];
    let mut at = chance.below(all.iter().sum());
    let call = all.iter().position(|&weight| {
        let here = at < weight;
        at = at.wrapping_sub(weight);
        here
    });
    call.unwrap()
}

/// So many new descriptors.
fn new_fds(both: &mut Both, next_fd: &mut u32, count: u32) {
    let list: Vec<u32> = (*next_fd..*next_fd + count).collect();
    *next_fd += count;
    both.fds(&list);
}

/// One call of either side; false ends the run.
fn step(both: &mut Both, chance: &mut Chance, w: &Weights, next_fd: &mut u32) -> bool {
    match chosen(chance, w) {
        0 => {
            both.send(kind(chance));
        }
        1 => {
            let most = if chance.once(20) { 300 } else { 5 };
            new_fds(both, next_fd, chance.below(most) as u32);
        }
        2 => {
            let bytes = packet(both, chance, w.long);
            return both.packet(&bytes);
        }
        3 => {
            let number = number(both, chance);
            both.discard(number, mode(chance));
        }
        4 => {
            let number = number(both, chance);
            match chance.below(3) {
                0 => both.poll_reply_or_error(number),
                1 => both.poll_check(number),
                _ => both.poll_reply(number),
            }
        }
        _ => both.poll_event(),
    }
    true
}

fn run(mut both: Both, chance: &mut Chance, steps: u64, end: End) -> u64 {
    let mut next_fd = 1000;
    for _ in 0..steps {
        if !step(&mut both, chance, &MIXED, &mut next_fd) {
            return both.calls;
        }
    }
    end(both, chance)
}

fn finish(both: Both, _: &mut Chance) -> u64 {
    both.finish()
}

/// A fresh connection. A request room of 1 takes one request and no second, since the last one stays outstanding.
fn fresh(chance: &mut Chance) -> Both {
    Both::new(
        chance.pick(&[1, 2, 7, 64, 65_536]),
        chance.pick(&[48, 96, 500, 4096, 100_000]),
    )
}

fn mixed(chance: &mut Chance) -> u64 {
    run(fresh(chance), chance, 4000, finish)
}

fn ask(both: &mut Both, requests: u64) {
    for _ in 0..requests {
        both.send(ReplyFdKind::ReplyWithFDs);
    }
}

/// A reply of a number, or an error; now and then a long one. Byte 1, the descriptors of a reply, is any.
fn answer(chance: &mut Chance, number: u64) -> Vec<u8> {
    let size = if chance.once(300) {
        long_size(chance)
    } else {
        32
    };
    let mut bytes = chance.bytes(size);
    bytes[0] = chance.pick(&[1, 1, 1, 0]);
    set_number(&mut bytes, number);
    bytes
}

/// Many descriptors, and many ways in which they are closed.
fn descriptors(chance: &mut Chance) -> u64 {
    let mut both = Both::new(512, 100_000);
    let mut next_fd = 0;
    let mut ended = 0;
    for _ in 0..300 {
        let requests = 1 + chance.below(6);
        ask(&mut both, requests);
        ended += answered(&mut both, chance, &mut next_fd, requests);
        let_go(&mut both, chance);
    }
    ended + both.finish()
}

/// Answers to the last requests, some of which are discarded first. A run that ends on the way gives way to a fresh
/// one: how many calls were compared in it.
fn answered(both: &mut Both, chance: &mut Chance, next_fd: &mut u32, requests: u64) -> u64 {
    let last = both.engine.last_sequence_written();
    for number in last + 1 - requests..=last {
        if chance.once(8) {
            both.discard(number, mode(chance));
        }
        if !claimed(both, chance, next_fd, number) {
            let ended = both.calls;
            both.restart(512, 100_000);
            return ended;
        }
    }
    0
}

/// Answers to one request, which claim as many descriptors as came, or fewer, or one more; false ends the run.
fn claimed(both: &mut Both, chance: &mut Chance, next_fd: &mut u32, number: u64) -> bool {
    (0..1 + chance.below(3)).all(|_| {
        let count = chance.below(5) as u32;
        new_fds(both, next_fd, count);
        let mut bytes = answer(chance, number);
        bytes[1] = chance.below(u64::from(count) + 2) as u8;
        both.packet(&bytes)
    })
}

/// All ways in which a held reply goes.
fn let_go(both: &mut Both, chance: &mut Chance) {
    for _ in 0..chance.below(8) {
        let number = number(both, chance);
        match chance.below(5) {
            0 => both.discard(number, DiscardMode::DiscardReply),
            1 => both.discard(number, DiscardMode::DiscardReplyAndError),
            2 => both.poll_reply(number),
            3 => both.poll_check(number),
            _ => both.poll_reply_or_error(number),
        }
    }
}

/// Several replies and errors of one number, with others before and behind, then discarded.
fn same_number(chance: &mut Chance) -> u64 {
    (0..60).map(|_| six_numbers(chance)).sum()
}

fn six_numbers(chance: &mut Chance) -> u64 {
    let mut both = Both::new(64, 100_000);
    let mut next_fd = 0;
    ask(&mut both, 6);
    for number in 1..=6 {
        several(&mut both, chance, &mut next_fd, number);
    }
    for _ in 0..6 {
        discard_one(&mut both, chance);
    }
    both.finish()
}

/// Up to five replies and errors of a number; a reply takes all descriptors that came.
fn several(both: &mut Both, chance: &mut Chance, next_fd: &mut u32, number: u64) {
    for _ in 0..chance.below(6) {
        let count = chance.below(3) as u32;
        new_fds(both, next_fd, count);
        let mut bytes = answer(chance, number);
        bytes[1] = if bytes[0] == 1 { count as u8 } else { 3 };
        assert!(both.packet(&bytes));
    }
}

/// One of the six numbers is discarded, or asked for.
fn discard_one(both: &mut Both, chance: &mut Chance) {
    let number = 1 + chance.below(6);
    match chance.below(4) {
        0 => both.discard(number, DiscardMode::DiscardReply),
        1 | 2 => both.discard(number, DiscardMode::DiscardReplyAndError),
        _ => both.poll_reply(number),
    }
}

/// A connection shortly before the numbers' low 16 bits, or their low 32, are all ones.
fn at_an_edge(chance: &mut Chance) -> Both {
    let edge = chance.pick(&[
        1 << 16,
        1 << 17,
        1 << 32,
        1 << 33,
        (1 << 32) + (1 << 16),
        1 << 62,
        (1 << 63) - (1 << 16),
    ]);
    let start = edge - 1 - chance.below(40);
    Both::after(start, chance.pick(&[8, 256, 65_536]), 100_000)
}

fn wraps(chance: &mut Chance) -> u64 {
    run(at_an_edge(chance), chance, 2000, finish)
}

/// So many requests, up to the first that is not accepted.
fn burst(both: &mut Both, kind: ReplyFdKind, requests: u64) {
    let mut sent = 0;
    while sent < requests && both.send_unseen(kind) {
        sent += 1;
    }
    both.compare("after a burst");
}

/// Requests without a reply up to the sync, some replies, and on past several wraps.
fn sync_bursts(chance: &mut Chance) -> u64 {
    let mut both = Both::new(65_536, 4096);
    for _ in 0..4 {
        let requests = chance.pick(&[1000, 20_000, 65_530, 65_533, 65_534, 65_535, 65_600]);
        burst(&mut both, ReplyFdKind::NoReply, requests);
        both.send(ReplyFdKind::ReplyWithoutFDs);
        both.send(ReplyFdKind::NoReply);
        let (written, read) = (
            both.engine.last_sequence_written(),
            both.engine.last_sequence_read(),
        );
        let back = match chance.below(3) {
            0 => chance.below(3),
            1 => chance.below(65_536),
            _ => chance.below(2000),
        };
        let mut bytes = chance.bytes(32);
        bytes[0] = chance.pick(&[0, 1, 28]);
        set_number(&mut bytes, written - back.min(written - read));
        both.packet(&bytes);
        both.poll_check(written);
        both.poll_event();
        both.poll_reply(both.engine.last_sequence_read());
    }
    both.finish()
}

/// Many packets over 65,536 bytes, with runs of short ones among them, and events taken many at a time.
fn long_packets(chance: &mut Chance) -> u64 {
    (0..10).map(|_| long_session(chance)).sum()
}

fn long_session(chance: &mut Chance) -> u64 {
    let (mut both, mut next_fd) = (Both::new(64, chance.pick(&[48, 200, 4096])), 1000);
    for _ in 0..200 {
        if chance.once(12) {
            both.poll_events(chance.pick(&[31, 100, 70_000, 400_000]));
        }
        if chance.once(12) {
            both.packets(&row(&both, chance));
        }
        if !step(&mut both, chance, &LONG, &mut next_fd) {
            return both.calls;
        }
    }
    both.finish()
}

/// Up to five packets of 32 bytes that claim no descriptors, with numbers from the last read on.
fn row(both: &Both, chance: &mut Chance) -> Vec<Vec<u8>> {
    let (mut number, count) = (both.engine.last_sequence_read(), chance.below(6));
    let next = |_| {
        let mut bytes = chance.bytes(32);
        bytes[0] = chance.pick(&[0, 1, 2, 11, 28, 35, 129, SENT_KEYMAP]);
        bytes[1] = 0;
        bytes[4..8].fill(0);
        number += chance.below(2);
        set_number(&mut bytes, number);
        bytes
    };
    (0..count).map(next).collect()
}

/// Short runs that end with a KeymapNotify that SendEvent made, with the last read's bits, bits near them, or any.
fn sent_keymaps(chance: &mut Chance) -> u64 {
    (0..100)
        .map(|_| short(Both::new(64, 4096), chance, a_keymap))
        .sum()
}

/// A run of few calls.
fn short(both: Both, chance: &mut Chance, end: End) -> u64 {
    let steps = chance.below(40);
    run(both, chance, steps, end)
}

fn a_keymap(both: Both, chance: &mut Chance) -> u64 {
    let mut bytes = chance.bytes(32);
    bytes[0] = SENT_KEYMAP;
    let read = both.engine.last_sequence_read();
    let bits = match chance.below(4) {
        0 | 1 => read,
        2 => read.wrapping_add(chance.pick(&[1, 2, u64::MAX])),
        _ => chance.next(),
    };
    set_number(&mut bytes, bits);
    both.end_with_keymap(&bytes)
}

/// Short runs that end with packets of any number; some shortly before 2^63, where that can pass the last there is.
fn packets_ahead(chance: &mut Chance) -> u64 {
    let run = |_| {
        let both = match chance.below(5) {
            0 | 1 => fresh(chance),
            2 | 3 => at_an_edge(chance),
            _ => Both::after((1 << 63) - 200, 64, 4096),
        };
        short(both, chance, any_number)
    };
    (0..100).map(run).sum()
}

/// A row of packets, or one: of a number that was sent, of one at the edge, or of any; at times after many requests.
fn any_number(mut both: Both, chance: &mut Chance) -> u64 {
    if chance.once(50) {
        let requests = chance.pick(&[10_000, 65_000]);
        burst(&mut both, ReplyFdKind::ReplyWithoutFDs, requests);
    }
    if chance.once(2) {
        let mut row = row(&both, chance);
        row.retain(|packet| packet[0] != SENT_KEYMAP);
        return both.end_with_row(&row);
    }
    let mut bytes = packet(&both, chance, 20);
    let number = match chance.below(3) {
        0 => sent_number(&both, chance),
        1 => both.engine.last_sequence_written() + chance.below(3),
        _ => chance.next(),
    };
    set_number(&mut bytes, number);
    match bytes[0] {
        SENT_KEYMAP => both.end_with_keymap(&bytes[..32]),
        _ => both.end_with_packet(&bytes),
    }
}

/// More than 2^32 requests from a fresh connection, in bulk; the state is compared now and then.
pub fn long() {
    let mut chance = Chance::new(1, "long", 0);
    let mut both = Both::new(65_536, 4096);
    let end = (1 << 32) + 200_000;
    while both.engine.last_sequence_written() < end {
        for _ in 0..chance.pick(&[3, 15, 15, 15, 40]) {
            both.send_unseen(ReplyFdKind::NoReply);
        }
        both.send_unseen(ReplyFdKind::ReplyWithoutFDs);
        let written = both.engine.last_sequence_written();
        let mut bytes = [0; 32];
        bytes[0] = 1;
        set_number(&mut bytes, written);
        both.packet(&bytes);
        both.poll_reply_or_error(written);
        if written % (1 << 28) < 60 {
            println!("beside long: {written} requests, no difference");
        }
    }
    println!("beside long: {} calls compared, no difference", both.calls);
}
