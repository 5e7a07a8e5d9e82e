//! The recorded runs: seeded scripts, and what the published Rust answers to them.

use std::fs;
use std::path::Path;

use crate::oracle::Oracle;
use crate::replay::{self, hex, Side};
use crate::script::{fail, Script};

type Writer = fn(&mut Script);

const RUNS: [(&str, Writer); 6] = [
    ("calls", calls),
    ("numbers", numbers),
    ("discards", discards),
    ("streams", streams),
    ("handshakes", handshakes),
    ("ids", ids),
];

/// The answers to a script of a file, as the Rust gives them.
pub fn answer(script: &str) {
    let text =
        fs::read_to_string(script).unwrap_or_else(|error| fail(&format!("{script}: {error}")));
    print!("{}", replay::run(&text, &mut Oracle::fresh(false)));
}

/// Writes every run and its answers to a folder.
pub fn record(folder: &str) {
    for (name, write) in RUNS {
        let mut script = Script::new(name);
        write(&mut script);
        let answers = replay::run(&script.text, &mut Oracle::fresh(true));
        let path = Path::new(folder).join(name);
        let wrote = fs::write(path.with_extension("txt"), &script.text)
            .and_then(|()| fs::write(path.with_extension("out"), &answers));
        if let Err(error) = wrote {
            fail(&format!("{folder}: {error}"));
        }
        println!(
            "record: {name}, {}",
            answers.lines().last().unwrap_or_default()
        );
    }
}

/// A fresh connection; in some rounds one shortly before the numbers' low 16 bits go round.
fn begin(s: &mut Script, round: usize) {
    s.op(["new", "new 65536 4194304 l"][round % 2]);
    if round % 5 == 4 {
        s.op("send reply 65530");
        s.intake(28, 65_530, 32);
    }
}

/// All calls of a connection in any order.
fn calls(s: &mut Script) {
    for round in 0..40 {
        begin(s, round);
        for _ in 0..45 {
            let state = s.state();
            match s.chance.below(26) {
                0..=5 => s.send(),
                6 => {
                    let count = s.chance.below(5) as u32;
                    s.fds(count);
                }
                7..=13 => {
                    let more = s.chance.below(state.written - state.read + 1);
                    let number = match s.chance.below(12) {
                        0 => state.read + more,
                        1..=4 => state.read,
                        _ => state.read + more.min(s.chance.below(5)),
                    };
                    let code = s.code();
                    let size = s.chance.pick(&[32, 32, 32, 32, 36, 60]);
                    s.intake(code, number, size);
                }
                14 | 15 => s.discard(),
                16..=20 => s.poll(),
                21..=23 => s.op("poll_event"),
                _ => s.op("state"),
            }
        }
        s.op("state");
    }
}

/// Many requests: to the sync and past it, over several wraps of 65,536, and answers to any of them.
fn numbers(s: &mut Script) {
    for round in 0..10 {
        s.op("new");
        for _ in 0..5 {
            let kind = s
                .chance
                .pick(&["none", "none", "none", "none", "none", "reply"]);
            let many = s.chance.pick(&[3, 20_000, 65_533, 65_534, 65_535, 65_536]);
            if s.room() > 0 {
                s.op(&format!("send {kind} {}", s.room().min(many)));
            }
            if s.room() > 0 {
                s.op("send none");
            }
            s.op("state");
            if s.room() > 0 {
                s.op("send reply");
            }
            let state = s.state();
            let unread = state.written - state.read;
            let number = match s.chance.below(9) {
                1 => state.read,
                2 => state.read + s.chance.below(unread + 1),
                3 => state.read + unread.min(65_535),
                4 => state.written - unread.min(s.chance.below(3)),
                _ => state.written,
            };
            let code = s.chance.pick(&[0, 1, 1, 28, 11]);
            s.intake(code, number, 32);
            s.op("state");
            for _ in 0..4 {
                s.poll();
            }
            s.op("poll_event");
        }
        s.op(&format!("prepare {}", u64::MAX - round));
    }
}

/// Several replies and errors of one number with descriptors, and all ways in which they go.
fn discards(s: &mut Script) {
    for _ in 0..36 {
        s.op("new");
        ask(s);
        for number in 1..=4 {
            answered(s, number);
        }
        s.op("state");
        let_go(s);
        s.op("state");
        s.ops("poll_event", 3);
    }
}

/// Four requests, most of them with descriptors.
fn ask(s: &mut Script) {
    for _ in 0..4 {
        let kind = s.chance.pick(&["fds", "fds", "fds", "reply", "none"]);
        s.op(&format!("send {kind}"));
    }
}

/// Up to four answers to a request, which may have been discarded before.
fn answered(s: &mut Script, number: u64) {
    if s.chance.once(6) {
        let mode = s.chance.pick(&["reply", "both"]);
        s.op(&format!("discard {number} {mode}"));
    }
    for _ in 0..s.chance.below(5) {
        let count = 1 + s.chance.below(4) as u32;
        s.fds(count);
        let code = s.chance.pick(&[1, 1, 1, 0]);
        s.intake(code, number, 32);
    }
}

fn let_go(s: &mut Script) {
    for _ in 0..8 {
        match s.chance.below(3) {
            0 => s.poll(),
            _ => s.discard(),
        }
    }
}

/// A whole packet of a server.
fn whole(s: &mut Script, number: u64) -> Vec<u8> {
    let code = s.chance.pick(&[0, 1, 1, 2, 11, 35, 128, 129, 163, 28]);
    let units = s.chance.pick(&[0, 0, 0, 1, 2, 9]);
    let long = code == 1 || code & 0x7f == 35;
    let mut bytes = s.packet(code, number, if long { 32 + 4 * units } else { 32 });
    if long {
        bytes[4..8].copy_from_slice(&(units as u32).to_le_bytes());
    }
    bytes
}

/// Streams in odd pieces: whole ones into the connection, damaged and cut ones through the reader.
fn streams(s: &mut Script) {
    for _ in 0..40 {
        s.op("new");
        s.op("reader");
        for _ in 0..6 {
            s.send();
            let state = s.state();
            let count = s.chance.below(3) as u32;
            s.fds(count);
            let number = state.read + s.chance.below(state.written - state.read + 1);
            let bytes = whole(s, number);
            pieces(s, "feedin", &bytes);
            s.poll();
        }
        s.op("state");
        let mut stream = Vec::new();
        for number in 0..4 {
            stream.extend(whole(s, number));
        }
        damaged(s, stream);
    }
}

fn pieces(s: &mut Script, op: &str, bytes: &[u8]) {
    let mut rest = bytes;
    while !rest.is_empty() {
        let most = s.chance.pick(&[7, 33, 200]);
        let n = (1 + s.chance.below(most) as usize).min(rest.len());
        s.op(&format!("{op} {}", hex(&rest[..n])));
        rest = &rest[n..];
    }
}

/// Bytes changed and the end cut off. A stream that would ask for over 65,536 bytes is left out.
fn damaged(s: &mut Script, mut stream: Vec<u8>) {
    for _ in 0..s.chance.below(4) {
        let at = s.chance.below(stream.len() as u64) as usize;
        stream[at] = s.chance.next() as u8;
    }
    if s.chance.once(2) {
        let at = s.chance.below(stream.len() as u64) as usize;
        stream.truncate(at);
    }
    let mut tried = Oracle::fresh(true);
    for &byte in &stream {
        tried.room()[0] = byte;
        let _ = tried.advance(1);
        if tried.room().len() > 65_536 - 32 {
            return;
        }
    }
    s.op("reader");
    match s.chance.below(2) {
        0 => pieces(s, "feed", &stream),
        _ => filled(s, &stream),
    }
}

/// The same by hand: bytes into the reader's buffer, then counted.
fn filled(s: &mut Script, stream: &[u8]) {
    let mut rest = stream;
    while !rest.is_empty() {
        let room = s.rust.room().len().min(rest.len());
        let n = match s.chance.below(3) {
            0 => room,
            1 => s.chance.below(room as u64 + 1) as usize,
            _ => room.min(5),
        };
        if n > 0 {
            s.op(&format!("fill {}", hex(&rest[..n])));
        }
        s.op(&format!("advance {n}"));
        rest = &rest[n..];
    }
}

/// Setup replies in odd pieces; a length of 0, and 0 bytes at 8, are outside the domain.
fn handshakes(s: &mut Script) {
    for _ in 0..60 {
        s.op("hello");
        let units = 1 + s.chance.below(30) as usize;
        let mut reply = s.chance.bytes(8 + 4 * units);
        reply[0] = s.chance.pick(&[0, 1, 2]);
        reply[6..8].copy_from_slice(&(units as u16).to_le_bytes());
        if s.chance.once(4) {
            reply.truncate(s.chance.below(reply.len() as u64) as usize);
        }
        let mut rest = &reply[..];
        while !rest.is_empty() {
            let room = s.rust.handshake_room().len().min(rest.len());
            let most = s.chance.pick(&[3, 8, 64]);
            let n = (1 + s.chance.below(most) as usize).min(room);
            s.op(&format!("hfill {}", hex(&rest[..n])));
            s.op(&format!("hadvance {n}"));
            rest = &rest[n..];
        }
    }
}

/// Masks and ranges whose ids and next id stay below 2^32, as the Rust's must.
fn ids(s: &mut Script) {
    for _ in 0..50 {
        let base = s.chance.below(1 << 28);
        let mask = match s.chance.below(6) {
            0 => 0,
            1 => 0x1f_ffff,
            2 => s.chance.below(1 << 28),
            _ => s.chance.pick(&[1, 2, 3, 6, 7]) << s.chance.below(20),
        };
        s.op(&format!("ids {base:#x} {mask:#x}"));
        let few = s.chance.below(12);
        s.ops("gen", few);
        let (start, count) = match s.chance.below(5) {
            0 => (0, 1),
            1 => (base, 0),
            _ => (s.chance.below(1 << 28), 1 + s.chance.below(6)),
        };
        s.op(&format!("range {start} {count}"));
        let few = s.chance.below(9);
        s.ops("gen", few);
    }
}
