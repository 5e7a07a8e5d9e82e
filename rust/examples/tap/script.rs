//! The session as a script of `replay` (`docs/REPLAY.md`).
//!
//! What the tap tells its engine and takes from it becomes commands, in the same order. An engine of the
//! script's own answers each through the crate, and the answer stands behind it as an `expect` line, with the
//! class of each packet. So whatever was taken in is polled at once, and neither this engine's store fills nor
//! that of `replay`.
//!
//! Of `state` the crate says less than `replay`: that command stands alone.

use std::fs::File;
use std::io::{self, BufWriter, Write};
use std::path::{Path, PathBuf};

use xiengmado::engine::Place;
use xiengmado::packet_reader::PacketWithClass;
use xiengmado::ByteOrder;

use crate::ours::Ours;
use crate::replay::{hex, op, Kind};

/// The rooms of the script's connection. Between two polls comes one piece, or one packet.
const REQUESTS: usize = 65_536;
const STORE: usize = 262_144;

/// At most so many bytes of the server are one line, and at most so many bytes of packets one answer,
/// unless it is of one packet: so no line is longer than `replay` takes.
const PIECE: usize = 16_384;

/// At most so many requests are one `sendall`; more of several kinds are a line for each run of one kind.
const ROW: usize = 1_000;

/// A `state` stands behind so many packets.
const STATE_EVERY: u64 = 1_000;

/// What some bytes of the server were.
pub enum Part {
    Setup,
    /// No packet became whole with them.
    Open,
    Packet(PacketWithClass),
    /// The first 32 bytes of a packet that is too long, with its class, and how many are still to come.
    Long(PacketWithClass, usize),
    /// Later bytes of such a one.
    Rest,
}

pub struct Script {
    path: PathBuf,
    out: BufWriter<File>,
    side: Ours,
    /// Requests and bytes of the server that are not in the file yet.
    sent: Vec<Kind>,
    piece: Vec<u8>,
    /// The bytes of the packets that these make whole.
    whole: usize,
    packets: u64,
    commands: u64,
    /// The first failure to write.
    failed: io::Result<()>,
}

/// The word of a kind, as scripts have it.
fn word(kind: Kind) -> &'static str {
    match kind {
        Kind::None => "none",
        Kind::Reply => "reply",
        Kind::Fds => "fds",
    }
}

impl Script {
    pub fn create(path: &Path) -> io::Result<Self> {
        let named =
            |error: io::Error| io::Error::new(error.kind(), format!("{}: {error}", path.display()));
        Ok(Script {
            path: path.to_path_buf(),
            out: BufWriter::new(File::create(path).map_err(named)?),
            side: Ours::fresh(),
            sent: Vec::new(),
            piece: Vec::new(),
            whole: 0,
            packets: 0,
            commands: 0,
            failed: Ok(()),
        })
    }

    fn line(&mut self, text: &str) {
        if self.failed.is_ok() {
            self.failed = writeln!(self.out, "{text}");
        }
    }

    /// A command and its answer, which is handed back.
    fn command(&mut self, text: &str) -> String {
        self.commands += 1;
        let answer = op(text, &mut self.side).expect("a command of the language");
        self.line(text);
        self.line(&format!("expect {answer}"));
        answer
    }

    fn state(&mut self) {
        self.commands += 1;
        self.line("state");
    }

    /// The client chose its byte order.
    pub fn start(&mut self, order: ByteOrder) {
        let order = match order {
            ByteOrder::Little => 'l',
            ByteOrder::Big => 'B',
        };
        self.command(&format!("new {REQUESTS} {STORE} {order}"));
        self.command("reader");
        self.command("hello");
        self.command("classes on");
    }

    /// The client sends a request.
    pub fn request(&mut self, kind: Kind) {
        self.sent.push(kind);
    }

    /// The client sends a request without a reply where a sync is due: the engine refuses it.
    pub fn late(&mut self) {
        self.flush();
        self.command("send none");
    }

    /// Descriptors of the server, before the bytes that they came with.
    pub fn fds(&mut self, fds: &[u32]) {
        self.flush();
        let words: Vec<String> = fds.iter().map(u32::to_string).collect();
        self.command(&format!("fds {}", words.join(" ")));
    }

    /// Bytes of the server, no further than to the end of a packet.
    pub fn server(&mut self, bytes: &[u8], part: &Part) {
        match part {
            Part::Setup => self.setup(bytes),
            Part::Open => self.bytes(bytes, 0),
            Part::Packet((packet, _)) => self.bytes(bytes, packet.len()),
            Part::Long((head, _), left) => {
                self.bytes(bytes, 0);
                self.long(head, *left);
            }
            Part::Rest => {}
        }
    }

    fn setup(&mut self, bytes: &[u8]) {
        self.command(&format!("hfill {}", hex(bytes)));
        let answer = self.command(&format!("hadvance {}", bytes.len()));
        if !answer.starts_with("hadvance true") {
            return;
        }
        if let Ok(setup) = self.side.handshake.clone().into_setup() {
            let (base, mask) = (setup.resource_id_base, setup.resource_id_mask);
            self.command(&format!("ids {base:#x} {mask:#x}"));
        }
    }

    fn bytes(&mut self, bytes: &[u8], whole: usize) {
        if self.piece.len() + bytes.len() > PIECE || self.whole + whole > PIECE {
            self.flush();
        }
        for part in bytes.chunks(PIECE) {
            if self.piece.len() == PIECE {
                self.flush();
            }
            self.piece.extend_from_slice(part);
        }
        self.whole += whole;
    }

    /// The reader refuses the packet; its first bytes are taken in past it.
    fn long(&mut self, head: &[u8], left: usize) {
        self.flush();
        self.command("reader");
        self.command(&format!("intake {}", hex(head)));
        self.line(&format!("# {left} bytes of a long packet are left out"));
        self.polls();
    }

    /// Writes what waits: the requests were counted before the server's bytes came.
    pub fn flush(&mut self) {
        self.sends();
        if self.piece.is_empty() {
            return;
        }
        let piece = hex(&std::mem::take(&mut self.piece));
        self.whole = 0;
        self.command(&format!("feedin {piece}"));
        self.polls();
    }

    fn sends(&mut self) {
        let sent = std::mem::take(&mut self.sent);
        let runs = sent.chunk_by(|a, b| a == b);
        if sent.len() <= ROW && runs.clone().count() > 1 {
            let words: Vec<&str> = sent.iter().map(|&kind| word(kind)).collect();
            self.command(&format!("sendall {}", words.join(" ")));
            return;
        }
        for run in runs {
            let kind = word(run[0]);
            match run.len() {
                1 => self.command(&format!("send {kind}")),
                count => self.command(&format!("send {kind} {count}")),
            };
        }
    }

    /// Takes back what is held: the events, then each reply or error by its number.
    fn polls(&mut self) {
        let (mut events, mut replies) = (0, Vec::new());
        for record in self.side.engine.records() {
            match record.place {
                Place::Replies => replies.push(record.number),
                _ => events += 1,
            }
        }
        match events {
            0 => {}
            1 => drop(self.command("poll_event")),
            _ => drop(self.command("drain")),
        }
        for number in &replies {
            self.command(&format!("poll_reply_or_error {number}"));
        }
        let before = self.packets;
        self.packets += events + replies.len() as u64;
        if before / STATE_EVERY != self.packets / STATE_EVERY {
            self.state();
        }
    }

    /// The end of the session: where it stands, and what was written.
    pub fn finish(mut self) -> io::Result<String> {
        self.flush();
        self.state();
        self.failed.and_then(|()| self.out.flush())?;
        let (path, commands) = (self.path.display(), self.commands);
        Ok(format!(
            "{path}: {commands} commands, {} packets",
            self.packets
        ))
    }
}

#[cfg(test)]
mod test {
    use super::*;
    use crate::check::Check;
    use crate::replay::run;

    const EVENT: u8 = 28;
    const FOCUS: u8 = 43;
    const NOTHING: u8 = 127;

    /// The longest line that `replay` takes, without its end.
    const LINE: usize = 132_095;

    fn packet(code: u8, number: u16, units: u32) -> Vec<u8> {
        let mut bytes = vec![0xa5; 32 + 4 * units as usize];
        bytes[..4].copy_from_slice(&[code, 0, number as u8, (number >> 8) as u8]);
        bytes[4..8].copy_from_slice(&units.to_le_bytes());
        bytes
    }

    fn requests(count: usize, opcode: u8) -> Vec<u8> {
        [opcode, 0, 1, 0].repeat(count)
    }

    /// A setup of 40 bytes with ids, or a failure without a reason.
    fn setup(status: u8) -> Vec<u8> {
        let mut bytes = vec![0; 40];
        (bytes[0], bytes[6]) = (status, 8);
        bytes[12..20].copy_from_slice(&[0, 0, 0x40, 0, 0xff, 0xff, 0x1f, 0]);
        bytes
    }

    /// The script of a session after the client's setup request.
    fn written(name: &str, session: impl FnOnce(&mut Check)) -> String {
        let path = std::env::temp_dir().join(format!("{name}-{}.txt", std::process::id()));
        let mut check = Check::default();
        check.script = Some(Script::create(&path).unwrap());
        check.client(b"l\0\x0b\0\0\0\0\0\0\0\0\0").unwrap();
        session(&mut check);
        check.script.take().unwrap().finish().unwrap();
        let text = std::fs::read_to_string(&path).unwrap();
        std::fs::remove_file(&path).unwrap();
        text
    }

    /// The commands alone; a fresh engine answers each as the script expects.
    fn commands(script: &str) -> Vec<&str> {
        assert!(script.lines().all(|line| line.len() <= LINE));
        let expects = |line: &&str| line.starts_with("expect ");
        let commands: Vec<&str> = script.lines().filter(|line| !expects(line)).collect();
        let answers = run(&commands.join("\n"), &mut Ours::fresh());
        let answers: Vec<&str> = answers.lines().collect();
        let states = |line: &&&str| line.starts_with("state ") || line.starts_with("end ");
        let given: Vec<&&str> = answers.iter().filter(|line| !states(line)).collect();
        let due: Vec<&str> = script
            .lines()
            .filter(expects)
            .map(|line| &line[7..])
            .collect();
        assert!(due.iter().eq(given), "the answers are those expected");
        commands
    }

    fn names<'a>(commands: &[&'a str]) -> Vec<&'a str> {
        let name = |line: &&'a str| line.split(' ').next().unwrap();
        commands.iter().map(name).collect()
    }

    #[test]
    fn a_session() {
        let script = written("session", |check| {
            check.server(&setup(1)).unwrap();
            check.client(&requests(3, NOTHING)).unwrap();
            check.server(&packet(EVENT, 2, 0)).unwrap();
            check.client(&requests(1, FOCUS)).unwrap();
            check.client(&requests(2, NOTHING)).unwrap();
            let three = [packet(EVENT, 3, 0), packet(1, 4, 1), packet(EVENT, 5, 0)].concat();
            check.server(&three[..50]).unwrap();
            check.server(&three[50..]).unwrap();
            check.client(&requests(1, NOTHING)).unwrap();
        });
        let lines = commands(&script);
        assert_eq!(lines[0], "new 65536 262144 l");
        assert_eq!(lines[8], "ids 0x400000 0x1fffff");
        assert_eq!(
            [lines[9], lines[12]],
            ["send none 3", "sendall reply none none"]
        );
        let due =
            "new reader hello classes hfill hadvance hfill hadvance ids send feedin poll_event \
                   sendall feedin poll_event feedin poll_event poll_reply_or_error send state";
        assert_eq!(names(&lines).join(" "), due);
        assert!(lines.contains(&"poll_reply_or_error 4"));
        assert!(script.contains("a5 reply ") && script.contains("a5 event\n"));
    }

    #[test]
    fn descriptors() {
        let script = written("descriptors", |check| {
            check.server(&setup(1)).unwrap();
            check
                .client(b"\x62\0\x03\0\x04\0\0\0DRI3\x7f\0\x01\0")
                .unwrap();
            let (mut dri3, mut buffers) = (packet(1, 1, 0), packet(1, 3, 0));
            dri3[8..10].copy_from_slice(&[1, 149]);
            check.server(&dri3).unwrap();
            check.client(b"\x95\x08\x01\0").unwrap();
            buffers[1] = 2;
            check.fds(2).unwrap();
            check.server(&buffers[..9]).unwrap();
            check.fds(1).unwrap();
            check.server(&buffers[9..]).unwrap();
            assert_eq!(check.counts().differences, 0);
        });
        let lines = commands(&script);
        let due =
            "sendall feedin poll_reply_or_error send fds feedin fds feedin poll_reply_or_error";
        assert_eq!(names(&lines[9..lines.len() - 1]).join(" "), due);
        assert_eq!(
            [lines[12], lines[13], lines[15]],
            ["send fds", "fds 1 2", "fds 3"]
        );
        assert!(script.contains("a5 fds 1 2\n"));
    }

    /// A client that sends no sync, and one that the server does not let in.
    #[test]
    fn refusals() {
        let script = written("late", |check| {
            check.server(&setup(1)).unwrap();
            check.client(&requests(65_535, NOTHING)).unwrap();
        });
        let lines = commands(&script);
        assert_eq!(
            lines[9..],
            ["send none 65534", "send none", "send reply", "state"]
        );
        assert!(script.contains("\nexpect send refused 6\n"));
        let script = written("failed", |check| check.server(&setup(0)).unwrap());
        assert!(!commands(&script).contains(&"ids 0x400000 0x1fffff"));
    }

    /// Packets of all lengths, in pieces of any: no line is too long, and a packet that is gives its head.
    #[test]
    fn lengths() {
        for size in [7, 20_000, 65_536] {
            let script = written("lengths", |check| {
                check.server(&setup(1)).unwrap();
                check.client(&requests(3, FOCUS)).unwrap();
                let mut bytes = packet(EVENT, 0, 0).repeat(2_100);
                bytes.extend([packet(1, 1, 16_376), packet(1, 2, 16_377)].concat());
                bytes.extend([packet(EVENT, 2, 0), packet(1, 3, 0)].concat());
                bytes
                    .chunks(size)
                    .for_each(|part| check.server(part).unwrap());
                assert_eq!(check.counts().differences, 0);
            });
            let lines = commands(&script);
            assert!(lines.contains(&"# 65508 bytes of a long packet are left out"));
            assert!(script.contains(" refused 2\n"));
            assert_eq!(lines[lines.len() - 2], "poll_reply_or_error 3");
            let drained = names(&lines).contains(&"drain");
            assert_eq!(drained, size > 64);
            assert_eq!(lines.iter().filter(|&&line| line == "state").count(), 3);
        }
    }
}
