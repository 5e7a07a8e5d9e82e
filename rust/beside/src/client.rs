//! One connection on both sides.

use std::cell::RefCell;
use std::panic::{catch_unwind, AssertUnwindSafe};

use xiengmado::connection::PollReplyWithClass;
use xiengmado::engine::{Engine, Fed, FiledWithClass, Halt, Place, Stop, MARKS, RECORD_HEADER};
use xiengmado::{ByteOrder, PacketClass, Refusal};

use crate::connection::{self, Connection, PollReply, ReplyFdKind};
use crate::protocol::xproto::{GE_GENERIC_EVENT, KEYMAP_NOTIFY_EVENT};
use crate::utils::{number, take_closed, RawFdContainer};
use crate::DiscardMode;

/// What the runs have met, so that one can see what was compared.
#[derive(Default)]
pub struct Met {
    pub syncs: u64,
    pub replies: u64,
    pub events: u64,
    pub dropped: u64,
    pub closed: u64,
    pub handed_out: u64,
    pub panics: u64,
    pub refused: u64,
    pub most_held: usize,
    pub long: Long,
    pub keymaps: Keymaps,
    pub ahead: Ahead,
    /// Packets whose class was told, by its number.
    pub classes: [u64; PacketClass::ALL.len()],
}

/// KeymapNotify events that SendEvent made: compared like any packet, left out of a run, and at the end of
/// one, where the sides go on alike or part.
#[derive(Default)]
pub struct Keymaps {
    pub compared: u64,
    pub left_out: u64,
    pub alike: u64,
    pub parted: u64,
}

/// Packets ahead of the requests: left out of a run; and at the end of one, where packets of any number are offered,
/// refused by 20, some of these in a row, or by 3. Alike are the ends at which all were taken.
#[derive(Default)]
pub struct Ahead {
    pub left_out: u64,
    pub refused: u64,
    pub in_rows: u64,
    pub passed: u64,
    pub alike: u64,
}

/// Packets over 65,536 bytes among them.
#[derive(Default)]
pub struct Long {
    pub replies: u64,
    pub errors: u64,
    pub events: u64,
    pub dropped: u64,
    pub became_events: u64,
    pub discarded: u64,
    pub handed_out: u64,
    pub with_fds: u64,
    pub gathered: u64,
}

thread_local! {
    pub static MET: RefCell<Met> = RefCell::default();
}

pub fn met(change: impl FnOnce(&mut Met)) {
    MET.with(|met| change(&mut met.borrow_mut()));
}

/// Whatever the runs so far have met.
pub fn report() -> String {
    MET.with(|met| {
        let met = met.borrow();
        format!(
            "syncs asked for {}, packets filed with the replies {}, with the events {}, dropped {}, \
             descriptors closed {}, handed out {}, panics met by 4 {}, calls outside the domain {}, \
             most packets held {}",
            met.syncs,
            met.replies,
            met.events,
            met.dropped,
            met.closed,
            met.handed_out,
            met.panics,
            met.refused,
            met.most_held,
        )
    })
}

/// The same of long packets.
pub fn report_long() -> String {
    MET.with(|met| {
        let long = &met.borrow().long;
        format!(
            "packets over 65,536 bytes: replies {}, errors {}, events {}, with descriptors {}, dropped {}, \
             errors that became events {}, discarded {}, handed out {}, gathered by a reader {}",
            long.replies,
            long.errors,
            long.events,
            long.with_fds,
            long.dropped,
            long.became_events,
            long.discarded,
            long.handed_out,
            long.gathered,
        )
    })
}

/// The same of KeymapNotify events that SendEvent made.
pub fn report_keymaps() -> String {
    MET.with(|met| {
        let keymaps = &met.borrow().keymaps;
        format!(
            "KeymapNotify by SendEvent: compared {}, left out {}, alike at the end of a run {}, parted there {}",
            keymaps.compared, keymaps.left_out, keymaps.alike, keymaps.parted,
        )
    })
}

/// The same of packets ahead of the requests.
pub fn report_ahead() -> String {
    MET.with(|met| {
        let ahead = &met.borrow().ahead;
        format!(
            "packets ahead of the requests: left out {}, at the end of a run refused by 20 {}, in rows {}, by 3 {}, \
             all taken {}",
            ahead.left_out, ahead.refused, ahead.in_rows, ahead.passed, ahead.alike,
        )
    })
}

/// The same of classes: how many packets of each were told of as the second reading has it.
pub fn report_classes() -> String {
    MET.with(|met| {
        let counts = PacketClass::ALL.iter().zip(met.borrow().classes);
        let words: Vec<String> = counts
            .map(|(class, count)| format!("{class} {count}"))
            .collect();
        format!("classes that were told: {}", words.join(", "))
    })
}

/// The class of a packet by its first byte: a second reading, which the Rust has no name for.
fn class_of(packet: &[u8]) -> PacketClass {
    let (code, sent) = (packet[0] & 0x7f, packet[0] & 0x80 != 0);
    match (packet[0], code == GE_GENERIC_EVENT) {
        (0, _) => PacketClass::Error,
        (1, _) => PacketClass::Reply,
        (_, true) if sent => PacketClass::SentGeneric,
        (_, true) => PacketClass::Generic,
        (_, false) if sent => PacketClass::SentEvent,
        (_, false) => PacketClass::Event,
    }
}

/// A call told the class of a packet.
pub fn told(call: &str, packet: &[u8], class: PacketClass) {
    same(call, "class", class, class_of(packet));
    met(|met| met.classes[class.number() as usize] += 1);
}

/// The code of a KeymapNotify that SendEvent made.
pub const SENT_KEYMAP: u8 = 139;

/// The number that the Rust gives to a packet.
fn number_after(read: u64, packet: &[u8]) -> u64 {
    let bits = u16::from_le_bytes([packet[2], packet[3]]);
    match packet[0] {
        KEYMAP_NOTIFY_EVENT => read,
        _ => read + u64::from(bits.wrapping_sub(read as u16)),
    }
}

/// Whether the sides part on a packet: on a KeymapNotify that SendEvent made, which the Rust numbers by its key
/// bits, where these are not the last read's; and on any other that the Rust numbers above the last written, which
/// the engine refuses by 20.
fn parts(packet: &[u8], written: u64, read: u64) -> bool {
    let number = number_after(read, packet);
    match packet[0] {
        SENT_KEYMAP => number != read,
        _ => written < number,
    }
}

/// A packet was left out of a run, since the sides part on it.
fn left_out(packet: &[u8]) {
    met(|met| match packet[0] {
        SENT_KEYMAP => met.keymaps.left_out += 1,
        _ => met.ahead.left_out += 1,
    });
}

/// The most bytes of a packet that the engine takes, and how many it takes of a longer one.
const MOST: usize = 65_536;
const HEAD: usize = 32;

fn is_long(packet: &[u8]) -> bool {
    packet.len() > MOST
}

/// The two sides of a run, and how many calls they have agreed on.
pub struct Both {
    pub engine: Engine,
    pub rust: Connection,
    pub calls: u64,
}

fn same<T: PartialEq + std::fmt::Debug>(call: &str, part: &str, ours: T, theirs: T) {
    assert!(
        ours == theirs,
        "{call}: {part}\n  here: {ours:?}\n  Rust: {theirs:?}"
    );
}

fn kind_of(kind: ReplyFdKind) -> xiengmado::connection::ReplyFdKind {
    use xiengmado::connection::ReplyFdKind as Ours;
    match kind {
        ReplyFdKind::NoReply => Ours::NoReply,
        ReplyFdKind::ReplyWithoutFDs => Ours::ReplyWithoutFDs,
        ReplyFdKind::ReplyWithFDs => Ours::ReplyWithFDs,
    }
}

fn mode_of(mode: DiscardMode) -> xiengmado::DiscardMode {
    match mode {
        DiscardMode::DiscardReply => xiengmado::DiscardMode::DiscardReply,
        DiscardMode::DiscardReplyAndError => xiengmado::DiscardMode::DiscardReplyAndError,
    }
}

fn poll_of(poll: PollReply) -> xiengmado::connection::PollReply {
    use xiengmado::connection::PollReply as Ours;
    match poll {
        PollReply::TryAgain => Ours::TryAgain,
        PollReply::NoReply => Ours::NoReply,
        PollReply::Reply(packet) => Ours::Reply(packet),
    }
}

/// A packet was filed.
fn filed(place: Place, packet: &[u8], class: PacketClass) {
    met(|met| match place {
        Place::Replies => met.replies += 1,
        Place::Events => met.events += 1,
        Place::Dropped => met.dropped += 1,
    });
    met(|met| met.keymaps.compared += u64::from(packet[0] == SENT_KEYMAP));
    if is_long(packet) {
        met(|met| match (place, class) {
            (Place::Dropped, _) => met.long.dropped += 1,
            (_, PacketClass::Error) => met.long.errors += 1,
            (_, PacketClass::Reply) => met.long.replies += 1,
            _ => met.long.events += 1,
        });
    }
}

/// A call handed a packet out, and told its class.
fn handed(call: &str, packet: &[u8], class: PacketClass) {
    told(call, packet, class);
    met(|met| met.long.handed_out += u64::from(is_long(packet)));
}

/// The answer of a poll, and nothing of its class.
fn polled(call: &str, poll: PollReplyWithClass) -> xiengmado::connection::PollReply {
    if let PollReplyWithClass::Reply(packet, class) = &poll {
        handed(call, packet, *class);
    }
    poll.into()
}

impl Both {
    /// A fresh connection with these rooms.
    pub fn new(requests: usize, store: usize) -> Self {
        let _ = take_closed();
        Both {
            engine: Engine::new(ByteOrder::Little, requests, store).unwrap(),
            rust: Connection::new(),
            calls: 0,
        }
    }

    /// A connection after so many requests, all of them handled.
    pub fn after(number: u64, requests: usize, store: usize) -> Self {
        let mut both = Both::new(requests, store);
        both.engine = Engine::after(ByteOrder::Little, requests, store, number).unwrap();
        both.rust = connection::after(number);
        both.compare("after");
        both
    }

    /// The run is over: a fresh connection with these rooms takes its place.
    pub fn restart(&mut self, requests: usize, store: usize) {
        drop(std::mem::replace(self, Both::new(requests, store)));
        let _ = take_closed();
    }

    /// Compares all that is closed since the last call, and the whole state.
    pub fn compare(&mut self, what: &str) {
        self.calls += 1;
        self.compare_closed(what);
        self.compare_state(what);
    }

    fn compare_closed(&mut self, what: &str) {
        let ours = self.engine.take_closed_fds().unwrap();
        met(|met| met.closed += ours.len() as u64);
        same(what, "closed", ours, take_closed());
    }

    fn numbers(&self) -> (u64, u64, u64) {
        let engine = &self.engine;
        (
            engine.last_sequence_written(),
            engine.next_reply_expected(),
            engine.last_sequence_read(),
        )
    }

    fn compare_state(&self, what: &str) {
        let engine = &self.engine;
        let (written, expected, read) = connection::numbers(&self.rust);
        same(what, "numbers", self.numbers(), (written, expected, read));
        let in_order = read <= expected && expected <= written;
        assert!(in_order, "{what}: read ahead of what was written");
        let outstanding = connection::outstanding(&self.rust);
        same(
            what,
            "outstanding",
            engine.outstanding_len(),
            outstanding.len(),
        );
        for (ours, theirs) in engine.outstanding().zip(outstanding) {
            same(what, "request", ours, theirs);
        }
        let mut cost = 0;
        for place in [Place::Replies, Place::Events] {
            let ours: Vec<_> = engine
                .records()
                .filter(|record| record.place == place)
                .map(|record| (record.number, record.packet, record.fds.to_vec()))
                .collect();
            let theirs = connection::held(&self.rust, place);
            cost += theirs
                .iter()
                .map(|held| RECORD_HEADER + if is_long(held.1) { HEAD } else { held.1.len() })
                .sum::<usize>();
            met(|met| met.most_held = met.most_held.max(ours.len()));
            same(what, "held", ours, theirs);
        }
        same(what, "used", engine.used(), cost);
        let waiting: Vec<u32> = connection::waiting(&self.rust).collect();
        same(what, "waiting", engine.waiting(), &waiting[..]);
    }

    /// A request; whether it was accepted. Only where there is room for it.
    pub fn send(&mut self, kind: ReplyFdKind) -> bool {
        let accepted = self.send_unseen(kind);
        self.compare("send_request");
        accepted
    }

    /// The same without a look at the state.
    pub fn send_unseen(&mut self, kind: ReplyFdKind) -> bool {
        let ours = match self.engine.send_request(kind_of(kind)) {
            Ok(number) => Some(number),
            Err(Refusal::SyncFirst) => {
                met(|met| met.syncs += 1);
                None
            }
            Err(Refusal::NoRoom) => {
                met(|met| met.refused += 1);
                return false;
            }
            Err(refusal) => panic!("send_request: {refusal}"),
        };
        same("send_request", "answer", ours, self.rust.send_request(kind));
        self.calls += 1;
        ours.is_some()
    }

    pub fn discard(&mut self, number: u64, mode: DiscardMode) {
        let before = self.long();
        self.engine.discard_reply(number, mode_of(mode)).unwrap();
        self.rust.discard_reply(number, mode);
        self.compare("discard_reply");
        let after = self.long();
        met(|met| {
            met.long.became_events += after.1 - before.1;
            met.long.discarded += before.0 + before.1 - after.0 - after.1;
        });
    }

    /// How many long packets are held with the replies, and with the events.
    fn long(&self) -> (u64, u64) {
        let long = self.engine.records().filter(|r| is_long(r.packet));
        let (replies, events): (Vec<_>, Vec<_>) = long.partition(|r| r.place == Place::Replies);
        (replies.len() as u64, events.len() as u64)
    }

    /// Descriptors, where there is room for them.
    pub fn fds(&mut self, list: &[u32]) {
        match self.engine.enqueue_fds(list) {
            Ok(()) => self
                .rust
                .enqueue_fds(list.iter().map(|&fd| RawFdContainer(fd)).collect()),
            Err(refusal) => same("enqueue_fds", "answer", refusal, Refusal::NoRoom),
        }
        self.compare("enqueue_fds");
    }

    /// A packet, unless the sides part on it; false ends the run, since the Rust has panicked where the engine
    /// refused by 4.
    pub fn packet(&mut self, packet: &[u8]) -> bool {
        if self.parts(packet) {
            left_out(packet);
            return true;
        }
        match self.enqueue(packet) {
            Ok((place, class)) => {
                filed(place, packet, class);
                if is_long(packet) && place == Place::Replies {
                    let fds = self.engine.records().last().map_or(0, |r| r.fds.len());
                    met(|met| met.long.with_fds += u64::from(fds > 0));
                }
                self.rust.enqueue_packet(packet.to_vec());
            }
            Err(Refusal::NoRoom) => met(|met| met.refused += 1),
            Err(Refusal::FewDescriptors) => {
                self.compare("enqueue_packet, refused");
                let rust = &mut self.rust;
                let call = catch_unwind(AssertUnwindSafe(|| rust.enqueue_packet(packet.to_vec())));
                met(|met| met.panics += 1);
                assert!(
                    call.is_err(),
                    "enqueue_packet: refused by 4, the Rust takes it"
                );
                return false;
            }
            Err(refusal) => panic!("enqueue_packet: {refusal}"),
        }
        self.compare("enqueue_packet");
        true
    }

    /// A packet of any length to the engine: where it was filed, and its class.
    fn enqueue(&mut self, packet: &[u8]) -> Result<(Place, PacketClass), Refusal> {
        let answer = self.engine.enqueue_packet_with_class(packet);
        let (place, _, class) = match is_long(packet) {
            true => self.enqueue_long(packet, answer.err())?,
            false => answer?,
        };
        told("enqueue_packet", packet, class);
        Ok((place, class))
    }

    /// The same for a long one, which was refused.
    fn enqueue_long(
        &mut self,
        packet: &[u8],
        refused: Option<Refusal>,
    ) -> Result<FiledWithClass, Refusal> {
        let due = Some(Refusal::LongPacket);
        same("enqueue_packet", "refusal", refused, due);
        let filed = self.engine.enqueue_long_packet_with_class(packet.to_vec());
        filed.map_err(|(refusal, back)| {
            assert!(back == packet, "enqueue_long_packet: other bytes come back");
            refusal
        })
    }

    fn parts(&self, packet: &[u8]) -> bool {
        let (written, _, read) = self.numbers();
        parts(packet, written, read)
    }

    /// The end of a run is a KeymapNotify that SendEvent made, with any bits: it is filed under the last read
    /// and changes no number, and the Rust does the same exactly where it does not part the sides.
    pub fn end_with_keymap(mut self, packet: &[u8]) -> u64 {
        let what = "KeymapNotify by SendEvent";
        let (parts, numbers) = (self.parts(packet), self.numbers());
        let filed = self.engine.enqueue_packet_with_class(packet);
        if filed == Err(Refusal::NoRoom) {
            return self.finish();
        }
        self.rust.enqueue_packet(packet.to_vec());
        let due = (Place::Events, numbers.2, PacketClass::SentEvent);
        same(what, "filed", filed, Ok(due));
        same(what, "numbers", self.numbers(), numbers);
        let theirs = connection::numbers(&self.rust);
        same(what, "whether the sides part", numbers != theirs, parts);
        if parts {
            met(|met| met.keymaps.parted += 1);
            return self.calls + 1;
        }
        met(|met| met.keymaps.alike += 1);
        self.compare(what);
        self.finish()
    }

    /// The end of a run is a packet of any number.
    pub fn end_with_packet(mut self, packet: &[u8]) -> u64 {
        let answer = self.enqueue(packet);
        if answer.is_ok() {
            self.rust.enqueue_packet(packet.to_vec());
        }
        self.compare("enqueue_packet");
        match answer {
            Ok(_) => self.end_alike(),
            Err(refusal) => self.end_refused(packet, refusal),
        }
    }

    /// The end of a run is a row of packets of any numbers.
    pub fn end_with_row(mut self, packets: &[Vec<u8>]) -> u64 {
        let fed = self.row(packets);
        let Halt::Refused(refusal) = fed.halt else {
            return self.end_alike();
        };
        met(|met| met.ahead.in_rows += u64::from(refusal == Refusal::Ahead));
        self.end_refused(&packets[fed.packets], refusal)
    }

    /// All was taken.
    fn end_alike(self) -> u64 {
        met(|met| met.ahead.alike += 1);
        self.finish()
    }

    /// A packet was refused, and has changed nothing: by 3 exactly where the Rust takes it under a number that passes
    /// 2^63 - 1, and otherwise by 20 exactly where that number is above the last written.
    fn end_refused(mut self, packet: &[u8], refusal: Refusal) -> u64 {
        let rust = &mut self.rust;
        let _ = catch_unwind(AssertUnwindSafe(|| rust.enqueue_packet(packet.to_vec())));
        let (written, _, read) = connection::numbers(&self.rust);
        let passes = read >= 1 << 63;
        let ours = [Refusal::NumberEnd, Refusal::Ahead].map(|by| refusal == by);
        met(|met| {
            met.ahead.passed += u64::from(ours[0]);
            met.ahead.refused += u64::from(ours[1]);
        });
        same(
            "refused",
            "by 3, by 20",
            ours,
            [passes, !passes && written < read],
        );
        self.calls
    }

    /// A row of packets, without those on which the sides part.
    pub fn packets(&mut self, packets: &[Vec<u8>]) {
        let (written, _, mut read) = self.numbers();
        let kept = |packet: &&Vec<u8>| {
            let parts = parts(packet, written, read);
            match parts {
                true => left_out(packet),
                false => read = number_after(read, packet),
            }
            !parts
        };
        let kept: Vec<_> = packets.iter().filter(kept).cloned().collect();
        self.row(&kept);
    }

    /// A row of packets as one run of bytes, up to the first that is refused.
    fn row(&mut self, packets: &[Vec<u8>]) -> Fed {
        let fed = self.engine.enqueue_packets(&packets.concat()).unwrap();
        let taken = &packets[..fed.packets];
        let whole = taken.len() == packets.len();
        same("enqueue_packets", "end", fed.halt == Halt::End, whole);
        same("enqueue_packets", "bytes", fed.bytes, taken.concat().len());
        for packet in taken {
            met(|met| met.keymaps.compared += u64::from(packet[0] == SENT_KEYMAP));
            self.rust.enqueue_packet(packet.clone());
        }
        self.compare("enqueue_packets");
        fed
    }

    /// As many events as go into an output of so many bytes.
    pub fn poll_events(&mut self, room: usize) {
        let (mut out, mut marks) = (vec![0; room], [0; 8 * MARKS]);
        let Ok(found) = self.engine.poll_for_events(&mut out, &mut marks) else {
            let oldest = connection::held(&self.rust, Place::Events)[0].1.len();
            assert!(oldest > room, "poll_for_events: an event fits");
            return;
        };
        let what = "poll_for_events";
        let mut rest = &out[..found.bytes];
        for mark in marks[..MARKS * found.count].chunks(MARKS) {
            let (packet, behind) = rest.split_at(mark[1] as usize);
            let class = PacketClass::from_number(mark[2]).expect("a class");
            handed(what, packet, class);
            let theirs = self.rust.poll_for_event_with_sequence();
            same(what, "event", Some((packet.to_vec(), mark[0])), theirs);
            rest = behind;
        }
        let left = connection::held(&self.rust, Place::Events).len();
        same(what, "end", found.stop == Stop::End, left == 0);
        self.compare(what);
    }

    pub fn poll_reply_or_error(&mut self, sequence: u64) {
        let what = "poll_for_reply_or_error";
        let ours = self.engine.poll_for_reply_or_error_with_class(sequence);
        let ours = ours.unwrap().map(|(packet, fds, class)| {
            handed(what, &packet, class);
            met(|met| met.handed_out += fds.len() as u64);
            (packet, fds)
        });
        let theirs = self
            .rust
            .poll_for_reply_or_error(sequence)
            .map(|(packet, fds)| (packet, fds.into_iter().map(number).collect()));
        same(what, "answer", ours, theirs);
        self.compare(what);
    }

    pub fn poll_check(&mut self, sequence: u64) {
        let prepared = self.engine.prepare_check_for_reply_or_error(sequence);
        same(
            "prepare_check_for_reply_or_error",
            "answer",
            prepared.unwrap(),
            self.rust.prepare_check_for_reply_or_error(sequence),
        );
        self.compare("prepare_check_for_reply_or_error");
        let what = "poll_check_for_reply_or_error";
        let ours = self
            .engine
            .poll_check_for_reply_or_error_with_class(sequence);
        let ours = polled(what, ours.unwrap());
        let theirs = self.rust.poll_check_for_reply_or_error(sequence);
        same(what, "answer", ours, poll_of(theirs));
        self.compare(what);
    }

    pub fn poll_reply(&mut self, sequence: u64) {
        let (what, before) = ("poll_for_reply", self.long().1);
        let ours = self.engine.poll_for_reply_with_class(sequence);
        let ours = polled(what, ours.unwrap());
        met(|met| met.long.became_events += self.long().1 - before);
        let theirs = self.rust.poll_for_reply(sequence);
        same(what, "answer", ours, poll_of(theirs));
        self.compare(what);
    }

    pub fn poll_event(&mut self) {
        let what = "poll_for_event_with_sequence";
        let ours = self.engine.poll_for_event_with_class().unwrap();
        let ours = ours.map(|(packet, number, class)| {
            handed(what, &packet, class);
            (packet, number)
        });
        let theirs = self.rust.poll_for_event_with_sequence();
        same(what, "answer", ours, theirs);
        self.compare(what);
    }

    /// The end of a run: what is inside is closed in the same order.
    pub fn finish(self) -> u64 {
        let inside = self.engine.inside().to_vec();
        connection::finish(self.rust);
        same("drop", "closed", inside, take_closed());
        self.calls
    }
}
