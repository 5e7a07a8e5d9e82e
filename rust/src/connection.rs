//! A connection to an X server, without the socket.

use std::mem::forget;

use crate::engine::{Engine, Fed, FiledWithClass, Place, Stop, MARKS};
use crate::errors::Refusal;
use crate::ffi;
use crate::{ByteOrder, DiscardMode, PacketClass, RawFdContainer, SequenceNumber};

/// A combination of a buffer and a list of file descriptors.
pub type BufWithFds = crate::BufWithFds<Vec<u8>>;

/// The raw bytes of an X11 event and its sequence number.
pub type RawEventAndSeqNumber = crate::RawEventAndSeqNumber<Vec<u8>>;

/// A packet, its file descriptors and its class.
pub type BufWithFdsAndClass = (Vec<u8>, Vec<RawFdContainer>, PacketClass);

/// The raw bytes of an event, its sequence number and its class.
pub type EventWithClass = (Vec<u8>, SequenceNumber, PacketClass);

/// Whether a request has a reply, and whether the reply has descriptors.
#[derive(Debug, Copy, Clone, PartialEq, Eq)]
pub enum ReplyFdKind {
    /// No reply.
    NoReply,
    /// A reply without descriptors.
    ReplyWithoutFDs,
    /// A reply with descriptors.
    ReplyWithFDs,
}

/// The result of polling for a reply.
#[derive(Debug, Clone, PartialEq, Eq)]
pub enum PollReply {
    /// It is not clear yet; try again later.
    TryAgain,
    /// There will be no reply.
    NoReply,
    /// Here it is.
    Reply(Vec<u8>),
}

/// The same, with the class of what is there.
#[derive(Debug, Clone, PartialEq, Eq)]
pub enum PollReplyWithClass {
    /// It is not clear yet; try again later.
    TryAgain,
    /// There will be no reply.
    NoReply,
    /// Here it is.
    Reply(Vec<u8>, PacketClass),
}

impl From<PollReplyWithClass> for PollReply {
    #[inline]
    fn from(poll: PollReplyWithClass) -> Self {
        match poll {
            PollReplyWithClass::TryAgain => PollReply::TryAgain,
            PollReplyWithClass::NoReply => PollReply::NoReply,
            PollReplyWithClass::Reply(packet, _) => PollReply::Reply(packet),
        }
    }
}

/// The rooms that `Connection::new` takes: both as large as they may be.
const REQUESTS: usize = 65_536;
const STORE: usize = 16_777_216;

/// The outputs of `Connection::poll_for_events`: bytes for the largest packet, and marks for each packet
/// of the least length that they take.
const OUT: usize = 65_536;
const MARKS_OUT: usize = MARKS * OUT / 32;

/// A client's side of the X11 protocol: it keeps what was sent and what came, and does no I/O.
///
/// Descriptors that the connection is not asked for again are closed at once, in the calls that have
/// the original's names; the `try_` calls leave them for [`Connection::take_closed_fds`].
///
/// A packet may be longer than the engine takes:
///
/// ```
/// use xiengmado::connection::{Connection, PollReply, ReplyFdKind};
///
/// let mut connection = Connection::new();
/// let number = connection.send_request(ReplyFdKind::ReplyWithoutFDs).expect("no sync is due");
/// let mut reply = vec![7; 1_920_032];
/// reply[..4].copy_from_slice(&[1, 0, 0, 0]);
/// reply[2..4].copy_from_slice(&(number as u16).to_ne_bytes());
/// connection.enqueue_packet(reply.clone());
/// assert!(connection.poll_for_reply(number) == PollReply::Reply(reply));
/// ```
#[derive(Debug)]
pub struct Connection {
    pub(crate) engine: Engine,
}

impl Default for Connection {
    fn default() -> Self {
        Self::new()
    }
}

impl Connection {
    /// A connection that was just established, with the largest rooms and this machine's byte order.
    pub fn new() -> Self {
        Self::with_rooms(ByteOrder::NATIVE, REQUESTS, STORE).expect("the rooms are in range")
    }

    /// The same with room for so many outstanding requests (1 to 65,536) and so many bytes of held
    /// packets (48 to 16,777,216; a packet takes 16 and its length). Refused by 9.
    pub fn with_rooms(order: ByteOrder, requests: usize, store: usize) -> Result<Self, Refusal> {
        let engine = Engine::new(order, requests, store)?;
        Ok(Connection { engine })
    }

    /// The engine below, to look at.
    pub fn engine(&self) -> &Engine {
        &self.engine
    }

    /// Send a request. `None` says that a sync is necessary before: send a request with a reply, read
    /// until that came, and take it.
    ///
    /// # Panics
    ///
    /// Where the requests' room is full (5), and past the last number, 2^63 - 1 (3). `try_send_request`
    /// answers the refusal. Requests without a reply never fill a room of 65,536 where that is done at `None`;
    /// requests with a reply do, where nothing is read.
    #[inline]
    pub fn send_request(&mut self, kind: ReplyFdKind) -> Option<SequenceNumber> {
        match self.try_send_request(kind) {
            Ok(number) => Some(number),
            Err(Refusal::SyncFirst) => None,
            Err(refusal) => panic!("send_request: {refusal}"),
        }
    }

    /// The same. Refused by 3, 6, 5. At 5 read, take packets in and poll, then try again.
    #[inline]
    pub fn try_send_request(&mut self, kind: ReplyFdKind) -> Result<SequenceNumber, Refusal> {
        self.engine.send_request(kind)
    }

    /// Send requests, one after the other up to the first that is refused by 3, 6, 5: how many, and
    /// what stopped it. The original has no such call; this one looks at the rooms once.
    pub fn send_requests(&mut self, kinds: &[ReplyFdKind]) -> (usize, Stop) {
        whole(self.engine.send_requests(kinds))
    }

    /// Ignore the reply of a request that was sent before.
    #[inline]
    pub fn discard_reply(&mut self, seqno: SequenceNumber, mode: DiscardMode) {
        self.try_discard_reply(seqno, mode)
            .unwrap_or_else(|refusal| panic!("discard_reply: {refusal}"));
        self.close();
    }

    /// The same, and descriptors stay for `take_closed_fds`. Never refused while the connection is whole.
    #[inline]
    pub fn try_discard_reply(
        &mut self,
        seqno: SequenceNumber,
        mode: DiscardMode,
    ) -> Result<(), Refusal> {
        self.engine.discard_reply(seqno, mode)
    }

    /// Descriptors were received, before the packets that they belong to.
    ///
    /// # Panics
    ///
    /// Where over 256 would be inside (5). `try_enqueue_fds` answers the refusal.
    pub fn enqueue_fds(&mut self, fds: Vec<RawFdContainer>) {
        if let Err((refusal, _)) = self.try_enqueue_fds(fds) {
            panic!("enqueue_fds: {refusal}");
        }
    }

    /// The same; a refusal, by 5, hands the descriptors back.
    pub fn try_enqueue_fds(
        &mut self,
        fds: Vec<RawFdContainer>,
    ) -> Result<(), (Refusal, Vec<RawFdContainer>)> {
        let numbers: Vec<u32> = fds.iter().map(ffi::number).collect();
        match self.engine.enqueue_fds(&numbers) {
            Ok(()) => {
                fds.into_iter().for_each(forget);
                Ok(())
            }
            Err(refusal) => Err((refusal, fds)),
        }
    }

    /// A packet was received, of any length.
    ///
    /// A KeymapNotify carries no number and gets the last one read, also where SendEvent made it (code 139), which
    /// the original numbers by its key bits.
    ///
    /// Of one over 65,536 bytes the engine takes the first 32. The packet is kept beside the engine until these
    /// are handed out, discarded or dropped.
    ///
    /// # Panics
    ///
    /// For under 32 bytes (1), where it answers what was not asked (20), where it claims more descriptors than
    /// wait (4), where the store has no room for it (5) and past the last number (3). `try_enqueue_packet` and
    /// `try_enqueue_long_packet` answer the refusal. The original panics at 4 as well, and takes in what was
    /// not asked.
    #[inline]
    pub fn enqueue_packet(&mut self, packet: Vec<u8>) {
        self.enqueue_packet_with_class(packet);
    }

    /// The same: the class of the packet.
    #[inline]
    pub fn enqueue_packet_with_class(&mut self, packet: Vec<u8>) -> PacketClass {
        let class = match self.engine.enqueue_packet_with_class(&packet) {
            Ok((.., class)) => {
                self.engine.spare(packet);
                class
            }
            Err(refusal) => self.enqueue_refused(refusal, packet),
        };
        self.close();
        class
    }

    #[cold]
    fn enqueue_refused(&mut self, refusal: Refusal, packet: Vec<u8>) -> PacketClass {
        match self.engine.enqueue_head(refusal, packet) {
            Ok((.., class)) => class,
            Err((refusal, _)) => panic!("enqueue_packet: {refusal}"),
        }
    }

    /// The same for at most 65,536 bytes: where it was filed, and under which number. Refused by 1, 2, 3,
    /// 20, 4, 5. At 20 its number is above the last written: drop it, or take no more of that server's packets
    /// in. At 5 poll, then try again.
    #[inline]
    pub fn try_enqueue_packet(
        &mut self,
        packet: &[u8],
    ) -> Result<(Place, SequenceNumber), Refusal> {
        self.engine.enqueue_packet(packet)
    }

    /// The same, and the packet's class with it.
    #[inline]
    pub fn try_enqueue_packet_with_class(
        &mut self,
        packet: &[u8],
    ) -> Result<FiledWithClass, Refusal> {
        self.engine.enqueue_packet_with_class(packet)
    }

    /// The same for any length; a refusal, by 1, 3, 20, 4, 5, hands the packet back.
    #[inline]
    pub fn try_enqueue_long_packet(
        &mut self,
        packet: Vec<u8>,
    ) -> Result<(Place, SequenceNumber), (Refusal, Vec<u8>)> {
        self.engine.enqueue_long_packet(packet)
    }

    /// The same, and the packet's class with it.
    #[inline]
    pub fn try_enqueue_long_packet_with_class(
        &mut self,
        packet: Vec<u8>,
    ) -> Result<FiledWithClass, (Refusal, Vec<u8>)> {
        self.engine.enqueue_long_packet_with_class(packet)
    }

    /// Bytes were received: each whole packet that they begin with is taken in, up to the first that is
    /// refused by 2, 3, 20, 4, 5. What is left behind the bytes taken is to be offered again, with more behind
    /// it or once there is room; at 2 by [`crate::packet_reader::PacketReader::advance`] and
    /// [`Connection::enqueue_packet`]; at 20 without its first packet, if at all. The original has no such
    /// call; this one looks at the rooms once.
    pub fn enqueue_packets(&mut self, bytes: &[u8]) -> Fed {
        let fed = whole(self.engine.enqueue_packets(bytes));
        self.close();
        fed
    }

    /// The oldest answer to a request that has a reply.
    #[inline]
    pub fn poll_for_reply_or_error(&mut self, sequence: SequenceNumber) -> Option<BufWithFds> {
        let (packet, fds, _) = self.poll_for_reply_or_error_with_class(sequence)?;
        Some((packet, fds))
    }

    /// The same, and the class of that answer.
    #[inline]
    pub fn poll_for_reply_or_error_with_class(
        &mut self,
        sequence: SequenceNumber,
    ) -> Option<BufWithFdsAndClass> {
        let (packet, fds, class) = whole(self.engine.poll_for_reply_or_error_with_class(sequence))?;
        let fds = fds.into_iter().map(ffi::from_number).collect();
        Some((packet, fds, class))
    }

    /// Whether a sync is necessary before `poll_check_for_reply_or_error` can tell.
    #[inline]
    pub fn prepare_check_for_reply_or_error(&mut self, sequence: SequenceNumber) -> bool {
        whole(self.engine.prepare_check_for_reply_or_error(sequence))
    }

    /// Whether the server has handled a request, with or without a reply.
    #[inline]
    pub fn poll_check_for_reply_or_error(&mut self, sequence: SequenceNumber) -> PollReply {
        self.poll_check_for_reply_or_error_with_class(sequence)
            .into()
    }

    /// The same, and whether its answer is a reply or an error.
    #[inline]
    pub fn poll_check_for_reply_or_error_with_class(
        &mut self,
        sequence: SequenceNumber,
    ) -> PollReplyWithClass {
        let answer = whole(
            self.engine
                .poll_check_for_reply_or_error_with_class(sequence),
        );
        self.close();
        answer
    }

    /// The reply of a request; an error becomes an event.
    #[inline]
    pub fn poll_for_reply(&mut self, sequence: SequenceNumber) -> PollReply {
        self.poll_for_reply_with_class(sequence).into()
    }

    /// The same, and the class with it.
    #[inline]
    pub fn poll_for_reply_with_class(&mut self, sequence: SequenceNumber) -> PollReplyWithClass {
        let answer = whole(self.engine.poll_for_reply_with_class(sequence));
        self.close();
        answer
    }

    /// The oldest event.
    #[inline]
    pub fn poll_for_event_with_sequence(&mut self) -> Option<RawEventAndSeqNumber> {
        whole(self.engine.poll_for_event_with_sequence())
    }

    /// The same, and its class with it: an error that nobody waits for stands among the events.
    #[inline]
    pub fn poll_for_event_with_class(&mut self) -> Option<EventWithClass> {
        whole(self.engine.poll_for_event_with_class())
    }

    /// All events, oldest first. The original has no such call; this one looks at the rooms once for
    /// as many events as 65,536 bytes take, where no long packet is held.
    pub fn poll_for_events(&mut self) -> Vec<RawEventAndSeqNumber> {
        self.all_events(|(packet, number, _)| (packet, number))
    }

    /// The same, and the class of each with it.
    pub fn poll_for_events_with_class(&mut self) -> Vec<EventWithClass> {
        self.all_events(|event| event)
    }

    /// All events, as they are told.
    fn all_events<T>(&mut self, told: impl Fn(EventWithClass) -> T) -> Vec<T> {
        let mut events = Vec::new();
        while !self.engine.rests.is_empty() {
            match self.poll_for_event_with_class() {
                Some(event) => events.push(told(event)),
                None => return events,
            }
        }
        self.short_events(|event| events.push(told(event)));
        events
    }

    /// The same where each event fits into the output.
    fn short_events(&mut self, mut tell: impl FnMut(EventWithClass)) {
        let (mut out, mut marks) = (vec![0; OUT], vec![0; MARKS_OUT]);
        loop {
            let handed = whole(self.engine.poll_for_events(&mut out, &mut marks));
            let mut rest = &out[..handed.bytes];
            for mark in marks[..MARKS * handed.count].chunks(MARKS) {
                let (packet, behind) = rest.split_at(mark[1] as usize);
                let class = PacketClass::from_number(mark[2]).expect("the number of a class");
                tell((packet.to_vec(), mark[0], class));
                rest = behind;
            }
            if handed.stop == Stop::End {
                return;
            }
        }
    }

    /// The descriptors that are to be closed, in their order.
    pub fn take_closed_fds(&mut self) -> Vec<RawFdContainer> {
        let closed = whole(self.engine.take_closed_fds());
        closed.into_iter().map(ffi::from_number).collect()
    }

    #[inline]
    fn close(&mut self) {
        if !self.engine.closing().is_empty() {
            drop(self.take_closed_fds());
        }
    }
}

/// What the engine refuses by 9 or 8 alone, which its owner never meets: the rooms are those of the
/// start, nobody else writes them, and the outputs take the largest packet and all descriptors.
#[inline]
fn whole<T>(answer: Result<T, Refusal>) -> T {
    answer.unwrap_or_else(|refusal| panic!("the connection is not whole: {refusal}"))
}

impl Drop for Connection {
    fn drop(&mut self) {
        for &number in self.engine.inside() {
            drop(ffi::from_number(number));
        }
    }
}

#[cfg(test)]
mod test {
    use super::*;
    use crate::engine::Halt;
    use std::fs::File;
    use std::io::Read;
    use std::os::unix::net::UnixStream;

    fn packet(kind: u8, detail: u8, number: u16) -> Vec<u8> {
        let mut bytes = vec![0; 32];
        bytes[0] = kind;
        bytes[1] = detail;
        bytes[2..4].copy_from_slice(&number.to_ne_bytes());
        bytes
    }

    #[test]
    fn request_reply_event() {
        let mut c = Connection::new();
        assert_eq!(c.send_request(ReplyFdKind::NoReply), Some(1));
        assert_eq!(c.send_request(ReplyFdKind::ReplyWithoutFDs), Some(2));
        assert!(!c.prepare_check_for_reply_or_error(1));
        assert!(c.prepare_check_for_reply_or_error(3));
        assert_eq!(c.poll_check_for_reply_or_error(1), PollReply::TryAgain);
        c.enqueue_packet(packet(1, 0, 2));
        c.enqueue_packet(packet(28, 0, 2));
        assert_eq!(c.poll_check_for_reply_or_error(1), PollReply::NoReply);
        assert_eq!(c.poll_for_reply(2), PollReply::Reply(packet(1, 0, 2)));
        assert_eq!(
            c.poll_for_event_with_sequence(),
            Some((packet(28, 0, 2), 2))
        );
        assert_eq!(c.poll_for_event_with_sequence(), None);
    }

    #[test]
    fn a_sync_comes_first() {
        let mut c = Connection::new();
        for _ in 0..65_534 {
            assert!(c.send_request(ReplyFdKind::NoReply).is_some());
        }
        assert_eq!(c.send_request(ReplyFdKind::NoReply), None);
        assert_eq!(c.send_request(ReplyFdKind::ReplyWithoutFDs), Some(65_535));
        assert_eq!(c.send_request(ReplyFdKind::NoReply), Some(65_536));
        assert_eq!(
            c.try_send_request(ReplyFdKind::NoReply),
            Err(Refusal::NoRoom)
        );
    }

    #[test]
    fn many_sends_stop_where_one_is_refused() {
        let mut c = Connection::new();
        let kinds = vec![ReplyFdKind::NoReply; 65_536];
        let sync = Stop::Refused(Refusal::SyncFirst);
        assert_eq!(c.send_requests(&kinds), (65_534, sync));
        assert_eq!(c.send_requests(&kinds), (0, sync));
        let kinds = [
            ReplyFdKind::ReplyWithoutFDs,
            ReplyFdKind::NoReply,
            ReplyFdKind::NoReply,
        ];
        assert_eq!(c.send_requests(&kinds[..1]), (1, Stop::End));
        assert_eq!(
            c.send_requests(&kinds[1..]),
            (1, Stop::Refused(Refusal::NoRoom))
        );
        assert_eq!(c.engine().last_sequence_written(), 65_536);
        assert_eq!(c.send_requests(&[]), (0, Stop::End));
    }

    /// A packet with so many fours behind its 32 bytes.
    fn long(order: ByteOrder, kind: u8, number: u16, fours: u32) -> Vec<u8> {
        let (number, fours_at) = match order {
            ByteOrder::Little => (number.to_le_bytes(), fours.to_le_bytes()),
            ByteOrder::Big => (number.to_be_bytes(), fours.to_be_bytes()),
        };
        let mut bytes = [&[kind, 0], &number[..], &fours_at[..]].concat();
        bytes.resize(32 + 4 * fours as usize, 7);
        bytes
    }

    #[test]
    fn a_keymap_notify_has_the_last_number() {
        let mut c = Connection::new();
        c.send_requests(&[ReplyFdKind::NoReply; 8]);
        let run = [(2, 7), (11, 3), (139, 9), (140, 8)].map(|(kind, bits)| packet(kind, 255, bits));
        run.iter().for_each(|p| c.enqueue_packet(p.clone()));
        let fed = c.engine.enqueue_packets(&run[2..].concat()).unwrap();
        assert_eq!(fed.packets, 2);
        let events = std::iter::from_fn(|| c.poll_for_event_with_sequence());
        let found: Vec<_> = events.map(|(bytes, number)| (bytes[0], number)).collect();
        assert_eq!(
            found,
            [(2, 7), (11, 7), (139, 7), (140, 8), (139, 8), (140, 8)]
        );
    }

    /// What answers no request that was sent comes back, and goes in once one more was.
    #[test]
    fn an_answer_to_nothing_is_refused() {
        let mut c = Connection::with_rooms(ByteOrder::NATIVE, 1024, 480).unwrap();
        c.send_requests(&[ReplyFdKind::ReplyWithFDs; 800]);
        let ahead = Halt::Refused(Refusal::Ahead);
        let before = format!("{c:?}");
        for kind in [0, 1, 2, 35, 163] {
            let packet = packet(kind, 1, 900);
            assert_eq!(c.try_enqueue_packet(&packet), Err(Refusal::Ahead));
            assert_eq!(c.enqueue_packets(&packet).halt, ahead);
            let refused = c.try_enqueue_long_packet(packet.clone());
            assert_eq!(refused, Err((Refusal::Ahead, packet)));
        }
        assert!(format!("{c:?}") == before);
        let run = [(2, 800), (11, 900), (139, 801), (2, 801)].map(|(k, n)| packet(k, 0, n));
        let fed = c.enqueue_packets(&run.concat());
        assert_eq!((fed.bytes, fed.packets, fed.halt), (96, 3, ahead));
        c.send_request(ReplyFdKind::NoReply);
        let fed = c.enqueue_packets(&run[3]);
        assert_eq!((fed.packets, fed.halt), (1, Halt::End));
        let numbers: Vec<_> = c.poll_for_events().iter().map(|event| event.1).collect();
        assert_eq!(numbers, [800, 800, 800, 801]);
    }

    #[test]
    #[should_panic(expected = "(refusal 20)")]
    fn an_answer_to_nothing_panics() {
        Connection::new().enqueue_packet(packet(2, 0, 1));
    }

    #[test]
    fn a_run_of_bytes_is_cut_into_packets() {
        for order in [ByteOrder::Little, ByteOrder::Big] {
            let (reply, event) = (long(order, 1, 1, 1), long(order, 2, 1, 0));
            let run = [&reply[..], &event, &event[..31]].concat();
            let fed = |bytes, packets, halt| Fed {
                bytes,
                packets,
                halt,
            };
            let mut engine = Engine::new(order, 8, 160).unwrap();
            engine.send_requests(&[ReplyFdKind::NoReply; 3]).unwrap();
            let mut single = engine.clone();
            assert_eq!(engine.enqueue_packets(&run), Ok(fed(68, 2, Halt::Part)));
            assert_eq!(engine.enqueue_packets(&[]), Ok(fed(0, 0, Halt::End)));
            // the store has room for one more event, and not for two
            let two = [long(order, 2, 2, 0), long(order, 2, 3, 0)].concat();
            let full = Halt::Refused(Refusal::NoRoom);
            assert_eq!(engine.enqueue_packets(&two), Ok(fed(32, 1, full)));
            assert_eq!(engine.last_sequence_read(), 2);
            // one by one it comes to the same
            for packet in [&reply, &event, &long(order, 2, 2, 0)] {
                single.enqueue_packet(packet).unwrap();
            }
            let all = |e: &Engine| -> Vec<_> {
                e.records().map(|r| (r.number, r.packet.to_vec())).collect()
            };
            assert_eq!(all(&engine), all(&single));
        }
    }

    #[test]
    fn a_run_with_a_long_packet_stops_at_its_first_bytes() {
        let order = ByteOrder::NATIVE;
        let mut engine = Engine::new(order, 8, 1024).unwrap();
        engine.send_request(ReplyFdKind::ReplyWithoutFDs).unwrap();
        let run = [long(order, 2, 1, 0), long(order, 1, 1, 16_377)].concat();
        for (end, bytes, halt) in [
            (31, 0, Halt::Part),
            (63, 32, Halt::Part),
            (64, 32, Halt::Refused(Refusal::LongPacket)),
            (run.len(), 32, Halt::Refused(Refusal::LongPacket)),
        ] {
            let fed = engine.enqueue_packets(&run[..end]).unwrap();
            assert_eq!(
                (fed.bytes, fed.packets, fed.halt),
                (bytes, bytes / 32, halt)
            );
        }
    }

    #[test]
    fn many_events_come_in_order() {
        let mut c = Connection::new();
        assert_eq!(c.poll_for_events(), vec![]);
        c.send_requests(&[ReplyFdKind::ReplyWithoutFDs; 5]);
        c.enqueue_packet(packet(1, 0, 1));
        let packets: Vec<_> = (0..5000)
            .map(|n| packet(2, n as u8, n / 1000 + 1))
            .collect();
        packets.iter().for_each(|p| c.enqueue_packet(p.clone()));
        let events = c.poll_for_events();
        let numbers: Vec<_> = (0..5000).map(|n| n / 1000 + 1).collect();
        assert_eq!(events.iter().map(|e| e.1).collect::<Vec<_>>(), numbers);
        assert!(events.into_iter().map(|e| e.0).eq(packets));
        assert_eq!(c.poll_for_reply(1), PollReply::Reply(packet(1, 0, 1)));
    }

    #[test]
    fn events_stop_where_an_output_ends() {
        let mut engine = Engine::new(ByteOrder::NATIVE, 8, 1024).unwrap();
        engine.send_requests(&[ReplyFdKind::NoReply; 4]).unwrap();
        let short = Stop::Refused(Refusal::OutShort);
        for n in 1..=4 {
            engine.enqueue_packet(&packet(2, n, n.into())).unwrap();
        }
        let (mut out, mut marks) = ([7; 100], [9; 8]);
        let event = PacketClass::Event.number();
        assert_eq!(
            engine.poll_for_events(&mut out[..31], &mut marks),
            Err(Refusal::OutShort)
        );
        assert_eq!(
            engine.poll_for_events(&mut out, &mut marks[..2]),
            Err(Refusal::OutShort)
        );
        assert_eq!((out, marks), ([7; 100], [9; 8]));
        let one = engine.poll_for_events(&mut out, &mut marks[..5]).unwrap();
        assert_eq!((one.count, one.bytes, one.stop), (1, 32, short));
        assert_eq!(marks, [1, 32, event, 9, 9, 9, 9, 9]);
        let two = engine.poll_for_events(&mut out[..95], &mut marks).unwrap();
        assert_eq!((two.count, two.bytes, two.stop), (2, 64, short));
        assert_eq!(marks, [2, 32, event, 3, 32, event, 9, 9]);
        assert_eq!(out[..64], [packet(2, 2, 2), packet(2, 3, 3)].concat());
        assert_eq!(out[64..], [7; 36]);
        let rest = engine.poll_for_events(&mut out, &mut marks).unwrap();
        assert_eq!((rest.count, rest.bytes, rest.stop), (1, 32, Stop::End));
        let none = engine.poll_for_events(&mut [], &mut []).unwrap();
        assert_eq!((none.count, none.bytes, none.stop), (0, 0, Stop::End));
    }

    #[test]
    fn an_error_becomes_an_event() {
        let mut c = Connection::new();
        c.send_request(ReplyFdKind::ReplyWithoutFDs);
        c.enqueue_packet(packet(0, 3, 1));
        assert_eq!(c.poll_for_reply(1), PollReply::NoReply);
        assert_eq!(c.poll_for_event_with_sequence(), Some((packet(0, 3, 1), 1)));
    }

    #[test]
    fn refusals_change_nothing() {
        let mut c = Connection::with_rooms(ByteOrder::Little, 1, 48).unwrap();
        let event = packet(28, 28, 0);
        assert_eq!(c.try_enqueue_packet(&[0; 31]), Err(Refusal::ShortPacket));
        assert_eq!(c.try_enqueue_packet(&[28; 32]), Err(Refusal::Ahead));
        assert_eq!(c.try_enqueue_packet(&event), Ok((Place::Events, 0)));
        assert_eq!(c.try_enqueue_packet(&event), Err(Refusal::NoRoom));
        assert_eq!(c.try_enqueue_packet(&[28; 32]), Err(Refusal::Ahead));
        assert_eq!(c.engine().records().count(), 1);
        assert_eq!(c.engine().used(), 48);
        assert!(Connection::with_rooms(ByteOrder::Big, 0, 48).is_err());
        assert!(Connection::with_rooms(ByteOrder::Big, 1, 47).is_err());
    }

    // The other end of each stream reads the end of the file once the descriptor is closed.
    fn pair() -> (RawFdContainer, UnixStream) {
        let (a, b) = UnixStream::pair().unwrap();
        b.set_nonblocking(true).unwrap();
        (a.into(), b)
    }

    fn is_closed(mut end: &UnixStream) -> bool {
        matches!(end.read(&mut [0]), Ok(0))
    }

    #[test]
    fn descriptors_are_handed_out_or_closed() {
        let mut c = Connection::new();
        let (fds, ends): (Vec<_>, Vec<_>) = (0..4).map(|_| pair()).unzip();
        for _ in 0..3 {
            c.send_request(ReplyFdKind::ReplyWithFDs);
        }
        c.enqueue_fds(fds);
        c.enqueue_packet(packet(1, 1, 1));
        c.enqueue_packet(packet(1, 1, 2));
        c.enqueue_packet(packet(1, 1, 3));
        let (_, mut handed) = c.poll_for_reply_or_error(1).unwrap();
        assert_eq!(handed.len(), 1);
        let file = File::from(handed.pop().unwrap());
        assert!(!is_closed(&ends[0]));
        drop(file);
        assert!(is_closed(&ends[0]));
        assert!(matches!(c.poll_for_reply(2), PollReply::Reply(_)));
        assert!(is_closed(&ends[1]));
        c.try_discard_reply(3, DiscardMode::DiscardReplyAndError)
            .unwrap();
        assert!(!is_closed(&ends[2]));
        assert_eq!(c.take_closed_fds().len(), 1);
        assert!(is_closed(&ends[2]));
        assert!(!is_closed(&ends[3]));
        drop(c);
        assert!(is_closed(&ends[3]));
    }

    #[test]
    fn descriptors_without_room_come_back() {
        let mut c = Connection::new();
        let (fds, ends): (Vec<_>, Vec<_>) = (0..257).map(|_| pair()).unzip();
        let (refusal, fds) = c.try_enqueue_fds(fds).unwrap_err();
        assert_eq!((refusal, fds.len()), (Refusal::NoRoom, 257));
        assert!(!is_closed(&ends[256]));
    }
}
