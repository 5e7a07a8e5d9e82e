//! The language of the recorded runs: a script has one op a line, and each is answered by a line that
//! begins with the op's name. `tests/README.md` has the ops; `sendall`, `drain` and `classes`, which no
//! recorded run has, are those of `docs/REPLAY.md`.

use std::fmt::Write;

use xiengmado::engine::RECORD_HEADER;
use xiengmado::PacketClass;

/// How many bytes of packets a `drain` hands out at most.
const OUTPUT: usize = 65_536;

/// Why a side did not do what an op asks: `refused N`, or what the published Rust says.
pub type Answer<T> = Result<T, String>;

/// The class of a packet, where it is shown.
pub type Class = Option<PacketClass>;

#[derive(Clone, Copy, PartialEq)]
pub enum Kind {
    None,
    Reply,
    Fds,
}

pub enum Poll {
    Again,
    NoReply,
    Reply(Vec<u8>),
}

/// An outstanding request: its letter, and a capital where it has descriptors.
pub struct Outstanding {
    pub number: u64,
    pub letter: char,
}

/// The whole state of a connection.
pub struct State {
    pub written: u64,
    pub expected: u64,
    pub read: u64,
    pub outstanding: Vec<Outstanding>,
    pub events: Vec<(u64, usize)>,
    pub replies: Vec<(u64, usize, Vec<u32>)>,
    pub waiting: Vec<u32>,
}

impl State {
    /// How many bytes of the packet store are used.
    pub fn used(&self) -> usize {
        let events = self.events.iter().map(|event| event.1);
        let replies = self.replies.iter().map(|reply| reply.1);
        events.chain(replies).map(|size| RECORD_HEADER + size).sum()
    }
}

/// The rooms that `new` names: K, S and whether the order is little.
pub type Rooms = Option<(usize, usize, bool)>;

/// One that can be asked: the engine, or the published Rust.
pub trait Side {
    fn new_connection(&mut self, rooms: Rooms) -> Answer<()>;
    fn send(&mut self, kind: Kind) -> Answer<u64>;
    fn fds(&mut self, list: &[u32]) -> Answer<()>;
    fn intake(&mut self, packet: &[u8]) -> Answer<Class>;
    fn discard(&mut self, number: u64, both: bool) -> Answer<()>;
    fn poll_reply_or_error(&mut self, number: u64) -> Answer<Option<(Vec<u8>, Vec<u32>)>>;
    fn poll_check(&mut self, number: u64) -> Answer<Poll>;
    fn poll_reply(&mut self, number: u64) -> Answer<Poll>;
    fn prepare(&mut self, number: u64) -> Answer<bool>;
    fn poll_event(&mut self) -> Answer<Option<(u64, Vec<u8>, Class)>>;
    fn state(&self) -> State;
    fn written(&self) -> u64 {
        self.state().written
    }
    fn closed(&mut self) -> Vec<u32>;

    /// From now on packets are shown with their classes; whether the side knows any.
    fn show_classes(&mut self) -> bool {
        false
    }

    fn new_reader(&mut self);
    fn room(&mut self) -> &mut [u8];
    fn advance(&mut self, amount: usize) -> Answer<Option<(Vec<u8>, Class)>>;

    fn new_handshake(&mut self);
    fn handshake_room(&mut self) -> &mut [u8];
    fn handshake_advance(&mut self, amount: usize) -> Answer<bool>;

    fn ids(&mut self, base: u32, mask: u32) -> Answer<()>;
    fn generate(&mut self) -> Answer<u32>;
    fn range(&mut self, start: u32, count: u32) -> Answer<()>;
}

/// The answers to a script, line by line, and the last line with the counts.
pub fn run(script: &str, side: &mut dyn Side) -> String {
    let mut out = String::new();
    let (mut lines, mut ops) = (0, 0);
    for line in script.lines() {
        lines += 1;
        if line.is_empty() || line.starts_with('#') {
            continue;
        }
        ops += 1;
        out += &op(line, side).unwrap_or_else(|| format!("bad line {lines}"));
        out += "\n";
    }
    out + &format!("end {lines} {ops}\n")
}

/// The answer to an op; nothing where it can't be read.
pub fn op(line: &str, side: &mut dyn Side) -> Option<String> {
    let words: Vec<&str> = line.split(' ').collect();
    let mut answer = match answer(&words, side)? {
        Ok(text) | Err(text) => format!("{} {text}", words[0]),
    };
    let closed = side.closed();
    if !closed.is_empty() {
        answer += &list(" closed", &closed);
    }
    Some(answer)
}

fn answer(words: &[&str], side: &mut dyn Side) -> Option<Answer<String>> {
    match words[0] {
        "reader" | "room" | "fill" | "advance" | "feed" | "feedin" => reader(words, side),
        "hello" | "hfill" | "hadvance" => handshake(words, side),
        "ids" | "gen" | "range" => allocator(words, side),
        "new" | "send" | "sendall" | "fds" | "intake" | "discard" => change(words, side),
        _ => look(words, side),
    }
}

fn ok(answer: Answer<()>) -> Answer<String> {
    answer.map(|()| "ok".into())
}

fn change(words: &[&str], side: &mut dyn Side) -> Option<Answer<String>> {
    Some(match *words {
        ["new"] => ok(side.new_connection(None)),
        ["new", k, s, order] => {
            let little = match order {
                "l" => true,
                "B" => false,
                _ => return None,
            };
            let rooms = (number(k)? as usize, number(s)? as usize, little);
            ok(side.new_connection(Some(rooms)))
        }
        ["send", kind] => side.send(kind_of(kind)?).map(|n| n.to_string()),
        ["send", kind, count] => match number(count)? {
            0 => return None,
            count => Ok(sends(side, kind_of(kind)?, count)),
        },
        ["sendall", ref kinds @ ..] => {
            let kinds: Option<Vec<Kind>> = kinds.iter().map(|word| kind_of(word)).collect();
            Ok(send_all(side, &kinds?))
        }
        ["fds", ref list @ ..] => {
            let list: Option<Vec<u32>> = list.iter().map(|word| word32(word)).collect();
            ok(side.fds(&list?))
        }
        ["intake", hex] => side
            .intake(&bytes(hex)?)
            .map(|class| format!("ok{}", word(class))),
        ["discard", n, "reply"] => ok(side.discard(number(n)?, false)),
        ["discard", n, "both"] => ok(side.discard(number(n)?, true)),
        _ => return None,
    })
}

/// A class as a word behind a packet.
fn word(class: Class) -> String {
    class.map_or(String::new(), |class| format!(" {class}"))
}

fn kind_of(word: &str) -> Option<Kind> {
    match word {
        "none" => Some(Kind::None),
        "reply" => Some(Kind::Reply),
        "fds" => Some(Kind::Fds),
        _ => None,
    }
}

/// The last answer of many sends, and how many were accepted.
fn sends(side: &mut dyn Side, kind: Kind, count: u64) -> String {
    let mut last = String::new();
    let mut accepted = 0;
    for _ in 0..count {
        last = match side.send(kind) {
            Ok(n) => {
                accepted += 1;
                n.to_string()
            }
            Err(text) => text,
        };
    }
    format!("{last} accepted {accepted}")
}

/// One request of each kind, up to the first that is refused.
fn send_all(side: &mut dyn Side, kinds: &[Kind]) -> String {
    let refused = kinds
        .iter()
        .enumerate()
        .find_map(|(at, &kind)| Some((at, side.send(kind).err()?)));
    let (count, refused) = match refused {
        Some((count, text)) => (count, format!(" {text}")),
        None => (kinds.len(), String::new()),
    };
    format!("sent {count} last {}{refused}", side.written())
}

fn look(words: &[&str], side: &mut dyn Side) -> Option<Answer<String>> {
    Some(match *words {
        ["poll_reply_or_error", n] => side.poll_reply_or_error(number(n)?).map(packet),
        ["poll_check", n] => side.poll_check(number(n)?).map(poll),
        ["poll_reply", n] => side.poll_reply(number(n)?).map(poll),
        ["prepare", n] => side.prepare(number(n)?).map(|yes| yes.to_string()),
        ["poll_event"] => side.poll_event().map(|event| match event {
            Some((number, packet, class)) => {
                format!("event {number} {}{}", hex(&packet), word(class))
            }
            None => "none".into(),
        }),
        ["drain"] => drain(side),
        ["classes", "on"] if side.show_classes() => Ok("ok".into()),
        ["state"] => Ok(state(&side.state())),
        _ => return None,
    })
}

/// As many events as one output takes, and one at least where one is held.
fn drain(side: &mut dyn Side) -> Answer<String> {
    let mut bytes = 0;
    let fit = |event: &&(u64, usize)| {
        bytes += event.1;
        bytes <= OUTPUT
    };
    let held = side.state().events;
    let count = held.iter().take_while(fit).count();
    let count = count.max(held.len().min(1));
    let mut text = format!("events {count}");
    for _ in 0..count {
        if let Some((number, packet, class)) = side.poll_event()? {
            write!(text, " {number} {}{}", hex(&packet), word(class)).unwrap();
        }
    }
    Ok(text)
}

fn packet(found: Option<(Vec<u8>, Vec<u32>)>) -> String {
    match found {
        None => "none".into(),
        Some((packet, fds)) if fds.is_empty() => format!("packet {}", hex(&packet)),
        Some((packet, fds)) => format!("packet {}{}", hex(&packet), list(" fds", &fds)),
    }
}

fn poll(poll: Poll) -> String {
    match poll {
        Poll::Again => "again".into(),
        Poll::NoReply => "noreply".into(),
        Poll::Reply(packet) => format!("reply {}", hex(&packet)),
    }
}

fn state(s: &State) -> String {
    let mut text = format!(
        "written {} expected {} read {} out",
        s.written, s.expected, s.read
    );
    if let Some(first) = s.outstanding.first() {
        write!(text, " {}", first.number).unwrap();
    }
    for run in s.outstanding.chunk_by(|a, b| a.letter == b.letter) {
        write!(text, " {}{}", run.len(), run[0].letter).unwrap();
    }
    text += " events";
    for (number, length) in &s.events {
        write!(text, " {number}:{length}").unwrap();
    }
    text += " replies";
    for (number, length, fds) in &s.replies {
        let fds: String = fds.iter().map(|fd| format!(":{fd}")).collect();
        write!(text, " {number}:{length}{fds}").unwrap();
    }
    text + &list(" waiting", &s.waiting) + &format!(" used {}", s.used())
}

fn reader(words: &[&str], side: &mut dyn Side) -> Option<Answer<String>> {
    Some(match *words {
        ["reader"] => {
            side.new_reader();
            Ok("ok".into())
        }
        ["room"] => Ok(side.room().len().to_string()),
        ["fill", hex] => fill(side.room(), &bytes(hex)?),
        ["advance", n] => match side.advance(number(n)? as usize) {
            Ok(Some((packet, _))) => Ok(format!("packet {}", hex(&packet))),
            Ok(None) => Ok(format!("none room {}", side.room().len())),
            Err(text) => Err(text),
        },
        ["feed", hex] => Ok(feed(side, &bytes(hex)?, false)),
        ["feedin", hex] => Ok(feed(side, &bytes(hex)?, true)),
        _ => return None,
    })
}

fn fill(room: &mut [u8], bytes: &[u8]) -> Answer<String> {
    let n = bytes.len().min(room.len());
    room[..n].copy_from_slice(&bytes[..n]);
    Ok("ok".into())
}

/// Bytes through the reader, and its packets into the connection where that is asked.
fn feed(side: &mut dyn Side, mut rest: &[u8], take_in: bool) -> String {
    let mut packets = Vec::new();
    let mut refused = String::new();
    while !rest.is_empty() && refused.is_empty() {
        let room = side.room();
        let n = rest.len().min(room.len());
        room[..n].copy_from_slice(&rest[..n]);
        rest = &rest[n..];
        let taken = side.advance(n).and_then(|packet| match packet {
            Some((packet, class)) => {
                packets.push(hex(&packet) + &word(class));
                match take_in {
                    true => side.intake(&packet).map(drop),
                    false => Ok(()),
                }
            }
            None => Ok(()),
        });
        if let Err(text) = taken {
            refused = format!(" {text}");
        }
    }
    let mut text = format!("packets {} room {}", packets.len(), side.room().len());
    for packet in packets {
        text += &format!(" {packet}");
    }
    text + &refused
}

fn handshake(words: &[&str], side: &mut dyn Side) -> Option<Answer<String>> {
    Some(match *words {
        ["hello"] => {
            side.new_handshake();
            Ok("ok".into())
        }
        ["hfill", hex] => fill(side.handshake_room(), &bytes(hex)?),
        ["hadvance", n] => side
            .handshake_advance(number(n)? as usize)
            .map(|complete| format!("{complete} room {}", side.handshake_room().len())),
        _ => return None,
    })
}

fn allocator(words: &[&str], side: &mut dyn Side) -> Option<Answer<String>> {
    Some(match *words {
        ["ids", base, mask] => ok(side.ids(word32(base)?, word32(mask)?)),
        ["gen"] => side.generate().map(|id| id.to_string()),
        ["range", start, count] => ok(side.range(word32(start)?, word32(count)?)),
        _ => return None,
    })
}

fn list(name: &str, numbers: &[u32]) -> String {
    let mut text = name.to_string();
    for number in numbers {
        write!(text, " {number}").unwrap();
    }
    text
}

fn number(word: &str) -> Option<u64> {
    match word.strip_prefix("0x") {
        Some(digits) => u64::from_str_radix(digits, 16).ok(),
        None => word.parse().ok(),
    }
}

fn word32(word: &str) -> Option<u32> {
    number(word)?.try_into().ok()
}

pub fn hex(bytes: &[u8]) -> String {
    let digit = |half: u8| char::from(b"0123456789abcdef"[usize::from(half)]);
    let pair = |byte: &u8| [digit(byte >> 4), digit(byte & 15)];
    bytes.iter().flat_map(pair).collect()
}

fn bytes(hex: &str) -> Option<Vec<u8>> {
    let digit = |b: u8| matches!(b, b'0'..=b'9' | b'a'..=b'f');
    if hex.len() % 2 == 1 || hex.len() > 131_072 || !hex.bytes().all(digit) {
        return None;
    }
    (0..hex.len())
        .step_by(2)
        .map(|at| u8::from_str_radix(&hex[at..at + 2], 16).ok())
        .collect()
}
