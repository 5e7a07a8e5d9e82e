//! The engine as it is: every call answers its refusal, descriptors are opaque numbers, and
//! everything that is held can be looked at.

use crate::connection::{EventWithClass, PollReply, PollReplyWithClass, ReplyFdKind};
use crate::errors::Refusal;
use crate::ffi::{self, Rooms};
use crate::packet_reader::packet_length_with_class;
use crate::rests::Rests;
use crate::{ByteOrder, DiscardMode, PacketClass, SequenceNumber};

/// The most bytes of a packet, and the least: by these it is numbered and filed.
const MOST_PACKET: usize = 65_536;
pub(crate) const HEAD: usize = 32;

/// The bytes of a held record in front of its packet.
pub const RECORD_HEADER: usize = 16;

/// How many marks [`Engine::poll_for_events`] writes for an event: its number, the length of its packet and
/// the number of its class ([`PacketClass::from_number`]).
pub const MARKS: usize = 3;

/// A packet and its descriptors.
pub type PacketWithFds = (Vec<u8>, Vec<u32>);

/// A packet, its descriptors and its class.
pub type PacketWithFdsAndClass = (Vec<u8>, Vec<u32>, PacketClass);

/// Where a packet was filed, under which number, and its class.
pub type FiledWithClass = (Place, SequenceNumber, PacketClass);

/// Where a packet was filed.
#[derive(Debug, Clone, Copy, PartialEq, Eq)]
pub enum Place {
    /// With the replies.
    Replies,
    /// With the events.
    Events,
    /// It was dropped, as its request asked.
    Dropped,
}

impl Place {
    #[inline]
    fn from_number(number: u8) -> Place {
        match number {
            0 => Place::Replies,
            1 => Place::Events,
            _ => Place::Dropped,
        }
    }
}

/// What stopped a call that makes many steps.
#[derive(Debug, Clone, Copy, PartialEq, Eq)]
pub enum Stop {
    /// It came to its end.
    End,
    /// The next step is refused.
    Refused(Refusal),
}

impl Stop {
    fn from_number(number: u32) -> Stop {
        Refusal::from_number(number).map_or(Stop::End, Stop::Refused)
    }
}

/// What stopped a row of packets.
#[derive(Debug, Clone, Copy, PartialEq, Eq)]
pub enum Halt {
    /// No byte is left.
    End,
    /// Part of a packet is left.
    Part,
    /// The next packet is refused.
    Refused(Refusal),
}

impl Halt {
    fn from_number(number: u32) -> Halt {
        match Refusal::from_number(number) {
            Some(refusal) => Halt::Refused(refusal),
            None if number == 0 => Halt::End,
            None => Halt::Part,
        }
    }
}

/// What was taken of a run of bytes.
#[derive(Debug, Clone, Copy, PartialEq, Eq)]
pub struct Fed {
    /// How many bytes: what is left behind them is to be offered again.
    pub bytes: usize,
    /// How many packets.
    pub packets: usize,
    /// Why no more.
    pub halt: Halt,
}

/// Events in two outputs: their packets one behind the other, and for each its [`MARKS`].
#[derive(Debug, Clone, Copy, PartialEq, Eq)]
pub struct Handed {
    /// How many events.
    pub count: usize,
    /// The bytes of their packets.
    pub bytes: usize,
    /// Whether none is left, or the next has no room.
    pub stop: Stop,
}

/// An outstanding request.
#[derive(Debug, Clone, Copy, PartialEq, Eq)]
pub struct Request {
    /// Its number.
    pub number: SequenceNumber,
    /// Whether its reply has descriptors.
    pub has_fds: bool,
    /// What is to happen to its answers.
    pub discard_mode: Option<DiscardMode>,
}

/// A held packet.
#[derive(Debug, Clone, Copy, PartialEq, Eq)]
pub struct Record<'a> {
    /// Whether it is with the replies or with the events.
    pub place: Place,
    /// The number that it was filed under.
    pub number: SequenceNumber,
    /// Its bytes, also those of a long one that are kept beside the engine.
    pub packet: &'a [u8],
    /// A reply's descriptors.
    pub fds: &'a [u32],
}

impl Record<'_> {
    /// The class of its packet.
    pub fn class(&self) -> PacketClass {
        packet_length_with_class(self.packet[0], 0).1
    }
}

fn byte(kind: ReplyFdKind) -> u8 {
    match kind {
        ReplyFdKind::NoReply => 0,
        ReplyFdKind::ReplyWithoutFDs => 1,
        ReplyFdKind::ReplyWithFDs => 2,
    }
}

/// A poll's answer where there will be no reply.
const NO_REPLY: u8 = 1;

/// How many emptied buffers are kept for packets that will be handed out, and of how many bytes.
const SPARES: usize = 16;
const SPARE_BYTES: usize = 4096;

/// A connection's state and its rooms.
#[derive(Debug, Clone)]
pub struct Engine {
    pub(crate) state: [u64; ffi::CONNECTION_SLOTS],
    pub(crate) rooms: Rooms,
    out: Box<[u8]>,
    fds: Box<[u32]>,
    spares: Vec<Vec<u8>>,
    pub(crate) rests: Rests,
}

impl Engine {
    /// A fresh connection with room for so many outstanding requests (1 to 65,536) and a packet store
    /// of so many bytes (48 to 16,777,216), of which a held packet takes [`RECORD_HEADER`] and its
    /// length. Refused by 9.
    pub fn new(order: ByteOrder, requests: usize, store: usize) -> Result<Self, Refusal> {
        let mut engine = Engine::bare(requests, store);
        ffi::connection_new(&mut engine.state, order.byte(), &engine.rooms)?;
        Ok(engine)
    }

    /// Rooms of these lengths, and no state yet.
    pub(crate) fn bare(requests: usize, store: usize) -> Self {
        Engine {
            state: [0; ffi::CONNECTION_SLOTS],
            rooms: Rooms {
                requests: vec![0; requests].into(),
                store: vec![0; store].into(),
                slots: vec![0; ffi::DESCRIPTORS].into(),
            },
            out: vec![0; MOST_PACKET].into(),
            fds: vec![0; ffi::DESCRIPTORS].into(),
            spares: Vec::with_capacity(SPARES),
            rests: Rests::default(),
        }
    }

    /// A connection after so many requests, of which the last had a reply that came and was taken:
    /// where runs begin that look at large numbers. Refused by 9.
    pub fn after(
        order: ByteOrder,
        requests: usize,
        store: usize,
        number: SequenceNumber,
    ) -> Result<Self, Refusal> {
        let mut engine = Engine::new(order, requests, store)?;
        engine.state[ffi::STATE_WRITTEN..=ffi::STATE_FIRST].fill(number);
        engine.prepare_check_for_reply_or_error(number)?;
        Ok(engine)
    }

    /// The number of the next request, to be asked for before it is written. Refused by 3, 6, 5.
    #[inline]
    pub fn send_request(&mut self, kind: ReplyFdKind) -> Result<SequenceNumber, Refusal> {
        ffi::send_request(&mut self.state, &mut self.rooms, byte(kind))
    }

    /// Numbers for requests before they are written, up to the first that is refused by 3, 6, 5: how
    /// many may be written, and what stopped it. Far quicker than as many calls of `send_request`.
    pub fn send_requests(&mut self, kinds: &[ReplyFdKind]) -> Result<(usize, Stop), Refusal> {
        let bytes: Vec<u8> = kinds.iter().map(|&kind| byte(kind)).collect();
        let (count, _, stop) = ffi::send_requests(&mut self.state, &mut self.rooms, &bytes)?;
        Ok((count, Stop::from_number(stop)))
    }

    /// The answers to a request are not wanted.
    #[inline]
    pub fn discard_reply(
        &mut self,
        number: SequenceNumber,
        mode: DiscardMode,
    ) -> Result<(), Refusal> {
        let byte = match mode {
            DiscardMode::DiscardReply => 1,
            DiscardMode::DiscardReplyAndError => 2,
        };
        ffi::discard_reply(&mut self.state, &mut self.rooms, number, byte)?;
        if !self.rests.is_empty() {
            self.rests.discarded(number, mode);
            debug_assert!(self.rests_fit());
        }
        Ok(())
    }

    /// Descriptors came: they wait for the replies that they belong to. Refused by 5.
    pub fn enqueue_fds(&mut self, fds: &[u32]) -> Result<(), Refusal> {
        ffi::enqueue_fds(&mut self.state, &mut self.rooms, fds)
    }

    /// A packet came: where it was filed, and under which number. Refused by 1, 2, 3, 20, 4,
    /// 5. At 20 that number is above the last written: the server answered what was not asked.
    #[inline]
    pub fn enqueue_packet(&mut self, packet: &[u8]) -> Result<(Place, SequenceNumber), Refusal> {
        let (place, number, _) = self.enqueue_packet_with_class(packet)?;
        Ok((place, number))
    }

    /// The same, and the packet's class with it.
    #[inline]
    pub fn enqueue_packet_with_class(&mut self, packet: &[u8]) -> Result<FiledWithClass, Refusal> {
        let (place, number, class) = ffi::enqueue_packet(&mut self.state, &mut self.rooms, packet)?;
        let place = Place::from_number(place);
        if !self.rests.is_empty() {
            self.filed(place, number, class);
        }
        Ok((place, number, class))
    }

    /// A packet goes on the lists beside the records.
    #[cold]
    fn filed(&mut self, place: Place, number: SequenceNumber, class: PacketClass) {
        self.rests.filed(place, number, class);
        debug_assert!(self.rests_fit());
    }

    /// The same for a packet of any length; a refusal, by 1, 3, 20, 4, 5, hands it back.
    ///
    /// Of one over 65,536 bytes the engine takes the first 32, by which it is numbered and filed. It is
    /// kept whole beside the engine until these are handed out, discarded or dropped. So it takes 48 bytes
    /// of the store, and memory for its length.
    #[inline]
    pub fn enqueue_long_packet(
        &mut self,
        packet: Vec<u8>,
    ) -> Result<(Place, SequenceNumber), (Refusal, Vec<u8>)> {
        let (place, number, _) = self.enqueue_long_packet_with_class(packet)?;
        Ok((place, number))
    }

    /// The same, and the packet's class with it.
    #[inline]
    pub fn enqueue_long_packet_with_class(
        &mut self,
        packet: Vec<u8>,
    ) -> Result<FiledWithClass, (Refusal, Vec<u8>)> {
        match self.enqueue_packet_with_class(&packet) {
            Ok(filed) => {
                self.spare(packet);
                Ok(filed)
            }
            Err(refusal) => self.enqueue_head(refusal, packet),
        }
    }

    /// The same for a packet that was refused: by its first bytes, if it is too long.
    #[cold]
    pub(crate) fn enqueue_head(
        &mut self,
        refusal: Refusal,
        packet: Vec<u8>,
    ) -> Result<FiledWithClass, (Refusal, Vec<u8>)> {
        if refusal != Refusal::LongPacket {
            return Err((refusal, packet));
        }
        let filed = match self.enqueue_packet_with_class(&packet[..HEAD]) {
            Ok(filed) => filed,
            Err(refusal) => return Err((refusal, packet)),
        };
        if filed.0 != Place::Dropped {
            self.catch_up();
            self.rests.keep(filed.0, packet);
        }
        Ok(filed)
    }

    /// Lists what the engine holds and no list has yet.
    fn catch_up(&mut self) {
        let mut rests = std::mem::take(&mut self.rests);
        rests.catch_up(self.records());
        self.rests = rests;
    }

    /// Whether the lists beside the records go with them, where a long packet is left.
    fn rests_fit(&self) -> bool {
        self.rests.is_empty() || self.rests.fit(self.records())
    }

    /// Bytes came from the server: each whole packet that they begin with is taken in, up to the first
    /// that is refused by 2, 3, 20, 4, 5. Far quicker than as many calls of `enqueue_packet`.
    pub fn enqueue_packets(&mut self, bytes: &[u8]) -> Result<Fed, Refusal> {
        let (bytes, packets, stop) = ffi::enqueue_packets(&mut self.state, &mut self.rooms, bytes)?;
        if !self.rests.is_empty() {
            self.catch_up();
        }
        Ok(Fed {
            bytes,
            packets,
            halt: Halt::from_number(stop),
        })
    }

    /// The oldest reply or error of a request, with its descriptors.
    #[inline]
    pub fn poll_for_reply_or_error(
        &mut self,
        number: SequenceNumber,
    ) -> Result<Option<PacketWithFds>, Refusal> {
        let answer = self.poll_for_reply_or_error_with_class(number)?;
        Ok(answer.map(|(packet, fds, _)| (packet, fds)))
    }

    /// The same, and the packet's class with it.
    #[inline]
    pub fn poll_for_reply_or_error_with_class(
        &mut self,
        number: SequenceNumber,
    ) -> Result<Option<PacketWithFdsAndClass>, Refusal> {
        let (found, size, count, class) = ffi::poll_for_reply_or_error(
            &mut self.state,
            &mut self.rooms,
            number,
            &mut self.out,
            &mut self.fds,
        )?;
        if found == 0 {
            return Ok(None);
        }
        let packet = self.reply(number, size);
        Ok(Some((packet, self.fds[..count].to_vec(), class)))
    }

    /// Whether a sync must be sent before `poll_check_for_reply_or_error` can tell.
    #[inline]
    pub fn prepare_check_for_reply_or_error(
        &self,
        number: SequenceNumber,
    ) -> Result<bool, Refusal> {
        let sync = ffi::prepare_check_for_reply_or_error(&self.state, &self.rooms, number)?;
        Ok(sync != 0)
    }

    /// The oldest reply or error of a request; its descriptors are to be closed.
    #[inline]
    pub fn poll_check_for_reply_or_error(
        &mut self,
        number: SequenceNumber,
    ) -> Result<PollReply, Refusal> {
        let answer = self.poll_check_for_reply_or_error_with_class(number)?;
        Ok(answer.into())
    }

    /// The same, and the packet's class with it.
    #[inline]
    pub fn poll_check_for_reply_or_error_with_class(
        &mut self,
        number: SequenceNumber,
    ) -> Result<PollReplyWithClass, Refusal> {
        let answer = ffi::poll_check_for_reply_or_error(
            &mut self.state,
            &mut self.rooms,
            number,
            &mut self.out,
        )?;
        Ok(self.polled(number, answer))
    }

    /// The oldest reply of a request; its descriptors are to be closed. An error becomes an event.
    #[inline]
    pub fn poll_for_reply(&mut self, number: SequenceNumber) -> Result<PollReply, Refusal> {
        let answer = self.poll_for_reply_with_class(number)?;
        Ok(answer.into())
    }

    /// The same, and the packet's class with it.
    #[inline]
    pub fn poll_for_reply_with_class(
        &mut self,
        number: SequenceNumber,
    ) -> Result<PollReplyWithClass, Refusal> {
        let answer = ffi::poll_for_reply(&mut self.state, &mut self.rooms, number, &mut self.out)?;
        if answer.0 == NO_REPLY && !self.rests.is_empty() {
            self.rests.became_event(number);
            debug_assert!(self.rests_fit());
        }
        Ok(self.polled(number, answer))
    }

    #[inline]
    fn polled(
        &mut self,
        number: SequenceNumber,
        (result, size, class): (u8, usize, PacketClass),
    ) -> PollReplyWithClass {
        match result {
            0 => PollReplyWithClass::TryAgain,
            NO_REPLY => PollReplyWithClass::NoReply,
            _ => PollReplyWithClass::Reply(self.reply(number, size), class),
        }
    }

    /// The oldest reply or error of a number, of which so many bytes are in the output.
    #[inline]
    fn reply(&mut self, number: SequenceNumber, size: usize) -> Vec<u8> {
        if self.rests.is_empty() {
            return self.handed(size);
        }
        let long = self.rests.reply(number);
        self.joined(long, size)
    }

    /// A long packet, or what is in the output.
    #[cold]
    fn joined(&mut self, long: Option<Vec<u8>>, size: usize) -> Vec<u8> {
        debug_assert!(self.rests_fit());
        let Some(packet) = long else {
            return self.handed(size);
        };
        debug_assert_eq!(packet[..HEAD], self.out[..size]);
        packet
    }

    /// So many bytes of the output as a packet of its own.
    #[inline]
    fn handed(&mut self, size: usize) -> Vec<u8> {
        let mut packet = self.spares.pop().unwrap_or_default();
        packet.extend_from_slice(&self.out[..size]);
        packet
    }

    /// A packet that was taken in: its buffer is kept for one that will be handed out.
    #[inline]
    pub(crate) fn spare(&mut self, mut packet: Vec<u8>) {
        if self.spares.len() < SPARES && packet.capacity() <= SPARE_BYTES {
            packet.clear();
            self.spares.push(packet);
        }
    }

    /// The oldest event, with its number.
    #[inline]
    pub fn poll_for_event_with_sequence(
        &mut self,
    ) -> Result<Option<(Vec<u8>, SequenceNumber)>, Refusal> {
        let event = self.poll_for_event_with_class()?;
        Ok(event.map(|(packet, number, _)| (packet, number)))
    }

    /// The same, and the class with it: an error that nobody waits for stands among the events.
    #[inline]
    pub fn poll_for_event_with_class(&mut self) -> Result<Option<EventWithClass>, Refusal> {
        let (found, number, size, class) =
            ffi::poll_for_event_with_sequence(&mut self.state, &mut self.rooms, &mut self.out)?;
        if found == 0 {
            return Ok(None);
        }
        if self.rests.is_empty() {
            return Ok(Some((self.handed(size), number, class)));
        }
        let long = self.rests.event();
        Ok(Some((self.joined(long, size), number, class)))
    }

    /// As many events as fit, oldest first: packets into `out`, and the [`MARKS`] of each, which are number,
    /// length and class, into `marks`. Refused by 8 where there is an event and not even one fits.
    pub fn poll_for_events(
        &mut self,
        out: &mut [u8],
        marks: &mut [u64],
    ) -> Result<Handed, Refusal> {
        if !self.rests.is_empty() {
            return self.poll_for_long_events(out, marks);
        }
        let (count, bytes, stop) =
            ffi::poll_for_events(&mut self.state, &mut self.rooms, out, marks)?;
        Ok(Handed {
            count,
            bytes,
            stop: Stop::from_number(stop),
        })
    }

    /// The same one by one, since the engine knows only the first bytes of a long event.
    fn poll_for_long_events(
        &mut self,
        out: &mut [u8],
        marks: &mut [u64],
    ) -> Result<Handed, Refusal> {
        let (mut count, mut bytes) = (0, 0);
        while let Some(size) = self.oldest_event() {
            let at = MARKS * count;
            if out.len() - bytes < size || marks.len() - at < MARKS {
                let stop = Stop::Refused(Refusal::OutShort);
                let handed = Handed { count, bytes, stop };
                return (count > 0).then_some(handed).ok_or(Refusal::OutShort);
            }
            let event = self.poll_for_event_with_class()?;
            let (packet, number, class) = event.expect("there is an event");
            out[bytes..bytes + size].copy_from_slice(&packet);
            marks[at..at + MARKS].copy_from_slice(&[number, size as u64, class.number()]);
            (count, bytes) = (count + 1, bytes + size);
        }
        let stop = Stop::End;
        Ok(Handed { count, bytes, stop })
    }

    /// How many bytes the oldest event has.
    fn oldest_event(&self) -> Option<usize> {
        let oldest = self.records().find(|r| r.place == Place::Events);
        oldest.map(|event| event.packet.len())
    }

    /// The descriptors to be closed, whole and in their order.
    pub fn take_closed_fds(&mut self) -> Result<Vec<u32>, Refusal> {
        let count = ffi::take_closed_fds(&mut self.state, &mut self.rooms, &mut self.fds)?;
        Ok(self.fds[..count].to_vec())
    }

    /// The number of the last request that was written.
    pub fn last_sequence_written(&self) -> SequenceNumber {
        self.state[ffi::STATE_WRITTEN]
    }

    /// The number of the next reply that is expected.
    pub fn next_reply_expected(&self) -> SequenceNumber {
        self.state[ffi::STATE_EXPECTED]
    }

    /// The number of the last packet that was read.
    pub fn last_sequence_read(&self) -> SequenceNumber {
        self.state[ffi::STATE_READ]
    }

    /// How many requests are outstanding.
    pub fn outstanding_len(&self) -> usize {
        (self.state[ffi::STATE_WRITTEN] + 1 - self.state[ffi::STATE_FIRST]) as usize
    }

    /// The outstanding requests, oldest first.
    pub fn outstanding(&self) -> impl Iterator<Item = Request> + '_ {
        (self.state[ffi::STATE_FIRST]..=self.state[ffi::STATE_WRITTEN]).map(|number| {
            let (fds, mode) = ffi::request_at(&self.rooms.requests, number)
                .expect("the request room has its length");
            Request {
                number,
                has_fds: fds != 0,
                discard_mode: match mode {
                    0 => None,
                    1 => Some(DiscardMode::DiscardReply),
                    _ => Some(DiscardMode::DiscardReplyAndError),
                },
            }
        })
    }

    /// The held packets in order of arrival, replies and events together.
    pub fn records(&self) -> impl Iterator<Item = Record<'_>> + '_ {
        let end = self.state[ffi::STATE_END] as usize;
        let mut at = self.state[ffi::STATE_START] as usize;
        let mut fd = self.closing().len();
        let (mut replies, mut events) = (0.., 0..);
        std::iter::from_fn(move || {
            let (kind, number, size, count) = ffi::record_at(&self.rooms.store, at, end).ok()?;
            let (place, nth) = match kind {
                0 => (Place::Replies, replies.next()?),
                _ => (Place::Events, events.next()?),
            };
            let held = &self.rooms.store[at + RECORD_HEADER..at + RECORD_HEADER + size];
            let record = Record {
                place,
                number,
                packet: self.rests.long(place, nth).unwrap_or(held),
                fds: &self.rooms.slots[fd..fd + usize::from(count)],
            };
            at += RECORD_HEADER + size;
            fd += usize::from(count);
            Some(record)
        })
    }

    /// How many bytes of the packet store are used.
    pub fn used(&self) -> usize {
        (self.state[ffi::STATE_END] - self.state[ffi::STATE_START]) as usize
    }

    /// The descriptors to be closed.
    #[inline]
    pub fn closing(&self) -> &[u32] {
        &self.rooms.slots[..self.state[ffi::STATE_CLOSED] as usize]
    }

    /// The descriptors that wait for a reply.
    pub fn waiting(&self) -> &[u32] {
        let start = (self.state[ffi::STATE_CLOSED] + self.state[ffi::STATE_HELD]) as usize;
        &self.rooms.slots[start..start + self.state[ffi::STATE_WAITING] as usize]
    }

    /// All descriptors inside: those to be closed, those held, those that wait.
    pub fn inside(&self) -> &[u32] {
        let count = self.state[ffi::STATE_CLOSED]
            + self.state[ffi::STATE_HELD]
            + self.state[ffi::STATE_WAITING];
        &self.rooms.slots[..count as usize]
    }
}
