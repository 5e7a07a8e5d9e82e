//! A script of a recorded run while it is written.

use crate::chance::Chance;
use crate::client::SENT_KEYMAP;
use crate::oracle::Oracle;
use crate::replay::{self, hex, Side, State};

/// What a `new` without rooms has place for; more would leave the domain on which both sides agree.
const REQUESTS: usize = 65_536;
const STORE: usize = 4_194_304;
const DESCRIPTORS: usize = 256;

const SEED: u64 = 1;

/// A script that grows, with the Rust's side after its ops.
pub struct Script {
    pub text: String,
    pub rust: Oracle,
    pub chance: Chance,
    next_fd: u32,
}

impl Script {
    pub fn new(name: &str) -> Self {
        Script {
            text: format!("# {name}: seeded, written by `make record`\n"),
            rust: Oracle::fresh(true),
            chance: Chance::new(SEED, name, 0),
            next_fd: 1,
        }
    }

    pub fn op(&mut self, line: &str) {
        self.text += line;
        self.text += "\n";
        let Some(answer) = replay::op(line, &mut self.rust) else {
            fail(&format!("no op: {line}"));
        };
        if answer.contains("panic") {
            fail(&format!("outside the domain: {line}"));
        }
        let state = self.rust.state();
        if state.read > state.written {
            fail(&format!("ahead of the requests: {line}"));
        }
    }

    pub fn ops(&mut self, line: &str, times: u64) {
        for _ in 0..times {
            self.op(line);
        }
    }

    pub fn state(&self) -> State {
        let state = self.rust.state();
        let fds: usize = state.replies.iter().map(|reply| reply.2.len()).sum();
        if state.outstanding.len() > REQUESTS
            || state.used() > STORE
            || fds + state.waiting.len() > DESCRIPTORS
        {
            fail("a script asks for more room than there is");
        }
        state
    }

    /// How many more requests can be outstanding.
    pub fn room(&self) -> usize {
        REQUESTS - self.state().outstanding.len()
    }

    /// Descriptors come; none where many are inside already.
    pub fn fds(&mut self, count: u32) {
        if count == 0 || self.state().waiting.len() > 40 {
            return;
        }
        let list: Vec<String> = (0..count).map(|i| (self.next_fd + i).to_string()).collect();
        self.next_fd += count;
        self.op(&format!("fds {}", list.join(" ")));
    }

    /// A packet of a code and a number. One that takes descriptors claims no more than wait. A KeymapNotify that
    /// SendEvent made has the last read's number, since the sides part on any other.
    pub fn packet(&mut self, code: u8, number: u64, size: usize) -> Vec<u8> {
        let state = self.state();
        let number = match code {
            SENT_KEYMAP => state.read,
            _ => number,
        };
        let mut bytes = self.chance.bytes(size);
        bytes[0] = code;
        bytes[1] = self.chance.below(4) as u8;
        bytes[2..4].copy_from_slice(&(number as u16).to_le_bytes());
        let full = state.read + u64::from((number as u16).wrapping_sub(state.read as u16));
        let takes = state
            .outstanding
            .iter()
            .any(|request| request.number == full && request.letter.is_uppercase());
        if takes {
            bytes[1] = bytes[1].min(state.waiting.len() as u8);
        }
        bytes
    }

    pub fn intake(&mut self, code: u8, number: u64, size: usize) {
        let packet = self.packet(code, number, size);
        self.op(&format!("intake {}", hex(&packet)));
    }

    /// A number that says something about the connection.
    pub fn number(&mut self) -> u64 {
        let state = self.state();
        let held: Vec<u64> = state.replies.iter().map(|reply| reply.0).collect();
        match self.chance.below(6) {
            0 => state.read.saturating_sub(self.chance.below(3)),
            1 => state.written + self.chance.below(2),
            2 => state.written.saturating_sub(self.chance.below(8)),
            _ if held.is_empty() => state.read,
            _ => self.chance.pick(&held),
        }
    }

    pub fn code(&mut self) -> u8 {
        match self.chance.below(10) {
            0..=3 => 1,
            4 | 5 => 0,
            6 => self.chance.pick(&[11, 35, 129, 163, 128]),
            _ => self.chance.next() as u8,
        }
    }

    pub fn poll(&mut self) {
        let number = self.number();
        let call =
            self.chance
                .pick(&["poll_reply_or_error", "poll_check", "poll_reply", "prepare"]);
        self.op(&format!("{call} {number}"));
    }

    pub fn discard(&mut self) {
        let number = self.number();
        let mode = self.chance.pick(&["reply", "both"]);
        self.op(&format!("discard {number} {mode}"));
    }

    pub fn send(&mut self) {
        let kind = self.chance.pick(&["none", "none", "reply", "fds"]);
        self.op(&format!("send {kind}"));
    }
}

/// Says what is wrong, and ends.
pub fn fail(text: &str) -> ! {
    println!("record: FAILED, {text}");
    std::process::exit(1);
}
