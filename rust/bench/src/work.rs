//! The work of each row: the same steps on every side. Whatever a run prepares or clears away is
//! outside its time; a run leaves its side as it found it, but for numbers that went on.

use std::time::{Duration, Instant};

use crate::chance::Chance;
use crate::sides::{Client, Frames, Handshake, Ids, See};

/// The time of a part of a run. Not inlined: `bench/instructions` counts what is done in here.
#[inline(never)]
pub fn timed(part: impl FnOnce()) -> Duration {
    let start = Instant::now();
    part();
    start.elapsed()
}

/// A packet of 32 bytes: 0 is an error, 1 a reply, anything else an event.
pub fn packet(code: u8, number: u64) -> [u8; 32] {
    let mut bytes = [0x5a; 32];
    bytes[0] = code;
    bytes[2..4].copy_from_slice(&(number as u16).to_ne_bytes());
    bytes[4..8].fill(0);
    bytes
}

/// A reply of so many bytes.
pub fn long_reply(size: usize, number: u64) -> Vec<u8> {
    let mut bytes = vec![0x5a; size];
    bytes[..32].copy_from_slice(&packet(1, number));
    bytes[4..8].copy_from_slice(&((size as u32 - 32) / 4).to_ne_bytes());
    bytes
}

/// Events and replies of all sizes up to 4 KiB, as a stream of so many bytes or a little more.
pub fn mixed_stream(size: usize) -> Vec<u8> {
    let mut chance = Chance::new(5, "", 0);
    let (mut bytes, mut number) = (Vec::with_capacity(size + 4096), 0);
    while bytes.len() < size {
        number += chance.below(2);
        match chance.below(4) {
            0 => {
                let longest = 1 << chance.below(11);
                let size = 32 + 4 * chance.below(longest) as usize;
                bytes.extend(long_reply(size, number));
            }
            1 => bytes.extend(packet(0, number)),
            _ => bytes.extend(packet(2 + chance.below(30) as u8, number)),
        }
    }
    bytes
}

/// A connection and the last number that it has read.
pub struct On<C> {
    pub c: C,
    pub read: u64,
}

/// Work on connections.
pub trait Work {
    /// How many connections it takes.
    fn connections(&self) -> usize {
        1
    }
    /// By how many its time is divided.
    fn count(&self) -> usize;
    fn run<C: Client>(&self, on: &mut [On<C>], see: &mut impl See) -> Duration;
}

/// Replies with the numbers after the last read, to requests that are sent before each.
fn replies<C>(on: &mut On<C>, n: usize) -> Vec<[u8; 32]> {
    let first = on.read + 1;
    on.read += n as u64;
    (first..=on.read).map(|number| packet(1, number)).collect()
}

fn drain<C: Client>(c: &mut C, see: &mut impl See) {
    while c.event(see) {}
}

/// Requests, so many on each of some connections; an event then clears them away.
pub struct Sends {
    pub kind: u8,
    pub connections: usize,
    pub each: usize,
}

impl Work for Sends {
    fn connections(&self) -> usize {
        self.connections
    }

    fn count(&self) -> usize {
        self.connections * self.each
    }

    fn run<C: Client>(&self, on: &mut [On<C>], see: &mut impl See) -> Duration {
        let time = timed(|| {
            for on in on.iter_mut() {
                for _ in 0..self.each {
                    see.number(on.c.send(self.kind).unwrap_or(0));
                }
            }
        });
        for on in on {
            on.read += self.each as u64 + 1;
            // All that is outstanding goes but one more request, whose number the event has.
            on.c.send(1);
            on.c.packet(&packet(2, on.read));
            drain(&mut on.c, see);
        }
        time
    }
}

/// One packet in and out by turns, beside so many held events, all with the number last read. That is 0, for which
/// nothing was sent, so that nothing is outstanding.
pub struct OneByOne {
    pub code: u8,
    pub beside: usize,
    pub turns: usize,
}

impl Work for OneByOne {
    fn count(&self) -> usize {
        self.turns
    }

    fn run<C: Client>(&self, on: &mut [On<C>], see: &mut impl See) -> Duration {
        let on = &mut on[0];
        for _ in 0..self.beside {
            on.c.packet(&packet(2, on.read));
        }
        let all = vec![packet(self.code, on.read); self.turns];
        let time = timed(|| {
            for packet in &all {
                on.c.packet(packet);
                match self.code {
                    1 => on.c.reply(on.read, see),
                    _ => assert!(on.c.event(see)),
                }
            }
        });
        drain(&mut on.c, see);
        time
    }
}

/// A request with a reply, its reply, and the taking of it.
pub struct RoundTrips {
    pub turns: usize,
}

impl Work for RoundTrips {
    fn count(&self) -> usize {
        self.turns
    }

    fn run<C: Client>(&self, on: &mut [On<C>], see: &mut impl See) -> Duration {
        let on = &mut on[0];
        let all = replies(on, self.turns);
        timed(|| {
            for packet in &all {
                let number = on.c.send(1).unwrap();
                on.c.packet(packet);
                on.c.reply(number, see);
            }
        })
    }
}

/// So many such events in, then all of them out, a call for each.
pub struct Burst {
    pub events: usize,
}

impl Work for Burst {
    fn count(&self) -> usize {
        self.events
    }

    fn run<C: Client>(&self, on: &mut [On<C>], see: &mut impl See) -> Duration {
        let on = &mut on[0];
        let all = vec![packet(2, on.read); self.events];
        timed(|| {
            for packet in &all {
                on.c.packet(packet);
            }
            drain(&mut on.c, see);
        })
    }
}

/// So many held replies are taken, the oldest or the newest first; or they are discarded.
pub enum Held {
    Oldest(usize),
    Newest(usize),
    Discard(usize),
}

impl Held {
    fn replies(&self) -> usize {
        match self {
            Held::Oldest(n) | Held::Newest(n) | Held::Discard(n) => *n,
        }
    }
}

impl Work for Held {
    fn count(&self) -> usize {
        self.replies()
    }

    fn run<C: Client>(&self, on: &mut [On<C>], see: &mut impl See) -> Duration {
        let on = &mut on[0];
        let first = on.read + 1;
        for held in replies(on, self.replies()) {
            on.c.send(1);
            on.c.packet(&held);
        }
        let numbers = first..=on.read;
        timed(|| match self {
            Held::Oldest(_) => numbers.for_each(|number| on.c.reply(number, see)),
            Held::Newest(_) => numbers.rev().for_each(|number| on.c.reply(number, see)),
            Held::Discard(_) => numbers.for_each(|number| on.c.discard(number, 2)),
        })
    }
}

/// A step of the soak script.
#[derive(Clone, Copy)]
enum Step {
    Send(u8),
    Packet([u8; 32]),
    Event,
    Reply(u64),
    Check(u64),
    ReplyOrError(u64),
    Discard(u64, u8),
}

/// Mixed calls as a client makes them: a few requests out, then their answers and some events, each
/// taken soon. Numbers start at 1, so each run has a fresh connection.
pub struct Soak {
    steps: Vec<Step>,
}

impl Soak {
    pub fn new(calls: usize, seed: u64) -> Self {
        let mut chance = Chance::new(seed, "", 0);
        let (mut steps, mut sent) = (Vec::with_capacity(calls + 64), 0);
        while steps.len() < calls {
            turn(&mut chance, &mut steps, &mut sent);
        }
        steps.truncate(calls);
        Soak { steps }
    }
}

/// One to eight requests, their answers among events, and then all is taken.
fn turn(chance: &mut Chance, steps: &mut Vec<Step>, sent: &mut u64) {
    let waited = asked(chance, steps, sent);
    for &(number, reply) in &waited {
        answered(chance, steps, number, reply);
    }
    for &(number, reply) in &waited {
        steps.push(match (reply, chance.below(2)) {
            (false, _) => Step::Check(number),
            (true, 0) => Step::Reply(number),
            (true, _) => Step::ReplyOrError(number),
        });
    }
    steps.resize(steps.len() + 2 * waited.len() + 1, Step::Event);
}

/// The requests: their numbers, and whether each has a reply.
fn asked(chance: &mut Chance, steps: &mut Vec<Step>, sent: &mut u64) -> Vec<(u64, bool)> {
    let mut waited = Vec::new();
    for _ in 0..=chance.below(8) {
        let reply = chance.below(3) > 0;
        steps.push(Step::Send(reply.into()));
        *sent += 1;
        waited.push((*sent, reply));
    }
    waited
}

/// A request's answer, an error now and then, and up to two events; at times it was discarded before.
fn answered(chance: &mut Chance, steps: &mut Vec<Step>, number: u64, reply: bool) {
    if chance.below(10) == 0 {
        steps.push(Step::Discard(number, 1 + chance.below(2) as u8));
    }
    match chance.below(8) {
        0 => steps.push(Step::Packet(packet(0, number))),
        _ if reply => steps.push(Step::Packet(packet(1, number))),
        _ => {}
    }
    for _ in 0..chance.below(3) {
        steps.push(Step::Packet(packet(2 + chance.below(30) as u8, number)));
    }
}

impl Work for Soak {
    fn count(&self) -> usize {
        self.steps.len()
    }

    fn run<C: Client>(&self, on: &mut [On<C>], see: &mut impl See) -> Duration {
        on[0].c = C::fresh();
        let c = &mut on[0].c;
        timed(|| {
            for step in &self.steps {
                match step {
                    Step::Send(kind) => see.number(c.send(*kind).unwrap_or(0)),
                    Step::Packet(packet) => c.packet(packet),
                    Step::Event => {
                        c.event(see);
                    }
                    Step::Reply(number) => c.reply(*number, see),
                    Step::Check(number) => c.check(*number, see),
                    Step::ReplyOrError(number) => c.reply_or_error(*number, see),
                    Step::Discard(number, mode) => c.discard(*number, *mode),
                }
            }
        })
    }
}

/// A stream through a reader.
pub fn frame<F: Frames>(reader: &mut F, mut stream: &[u8], see: &mut impl See) -> Duration {
    timed(|| {
        while !stream.is_empty() {
            stream = &stream[reader.feed(stream, see)..];
        }
    })
}

/// So many handshakes with a server's reply.
pub fn shake<H: Handshake>(h: &mut H, reply: &[u8], times: usize, see: &mut impl See) -> Duration {
    timed(|| {
        for _ in 0..times {
            h.whole(reply, see);
        }
    })
}

/// So many ids of a range.
pub fn ids<I: Ids>(ids: &mut I, times: usize, see: &mut impl See) -> Duration {
    ids.range(0x20_0000, 0x10_0000);
    timed(|| {
        for _ in 0..times {
            see.number(ids.id().map_or(0, u64::from));
        }
    })
}

/// So many ranges, an id of each.
pub fn ranges<I: Ids>(ids: &mut I, times: usize, see: &mut impl See) -> Duration {
    timed(|| {
        for turn in 0..times as u32 {
            ids.range(0x30_0000 + turn, 16);
            see.number(ids.id().map_or(0, u64::from));
        }
    })
}
