//! The engine as a side of the recorded runs.

use std::fs;
use std::path::PathBuf;

use crate::replay::{Answer, Class, Kind, Outstanding, Poll, Rooms, Side, State};
use xiengmado::connect::Connect;
use xiengmado::connection::{PollReply, ReplyFdKind};
use xiengmado::engine::{Engine, Place};
use xiengmado::id_allocator::IdAllocator;
use xiengmado::packet_reader::PacketReader;
use xiengmado::protocol::xc_misc::GetXIDRangeReply;
use xiengmado::{ByteOrder, DiscardMode, Refusal};

/// The rooms of a `new` that names none.
const REQUESTS: usize = 65_536;
const STORE: usize = 4_194_304;

pub struct Ours {
    pub engine: Engine,
    pub reader: PacketReader,
    pub handshake: Connect,
    pub ids: IdAllocator,
    /// The connection's, which a new reader or handshake takes.
    order: ByteOrder,
    /// Whether packets are shown with their classes.
    classes: bool,
}

fn refused(refusal: Refusal) -> String {
    format!("refused {}", refusal.number())
}

fn reader(order: ByteOrder) -> PacketReader {
    PacketReader::with_buffer(order, 65_536).expect("the buffer is in range")
}

fn handshake(order: ByteOrder) -> Connect {
    let made = Connect::with_buffer(order, &[], &[], 262_148);
    made.expect("the buffer is in range").0
}

fn polled(poll: PollReply) -> Poll {
    match poll {
        PollReply::TryAgain => Poll::Again,
        PollReply::NoReply => Poll::NoReply,
        PollReply::Reply(packet) => Poll::Reply(packet),
    }
}

impl Ours {
    pub fn fresh() -> Self {
        let order = ByteOrder::Little;
        Ours {
            engine: Engine::new(order, REQUESTS, STORE).expect("rooms are in range"),
            reader: reader(order),
            handshake: handshake(order),
            order,
            classes: false,
            ids: IdAllocator::new(0, 1).expect("a mask"),
        }
    }
}

impl Side for Ours {
    fn new_connection(&mut self, rooms: Rooms) -> Answer<()> {
        let (requests, store, little) = rooms.unwrap_or((REQUESTS, STORE, true));
        let order = if little {
            ByteOrder::Little
        } else {
            ByteOrder::Big
        };
        self.engine = Engine::new(order, requests, store).map_err(refused)?;
        self.order = order;
        Ok(())
    }

    fn send(&mut self, kind: Kind) -> Answer<u64> {
        let kind = match kind {
            Kind::None => ReplyFdKind::NoReply,
            Kind::Reply => ReplyFdKind::ReplyWithoutFDs,
            Kind::Fds => ReplyFdKind::ReplyWithFDs,
        };
        self.engine.send_request(kind).map_err(refused)
    }

    fn fds(&mut self, list: &[u32]) -> Answer<()> {
        self.engine.enqueue_fds(list).map_err(refused)
    }

    fn intake(&mut self, packet: &[u8]) -> Answer<Class> {
        let filed = self.engine.enqueue_packet_with_class(packet);
        let (.., class) = filed.map_err(refused)?;
        Ok(self.classes.then_some(class))
    }

    fn discard(&mut self, number: u64, both: bool) -> Answer<()> {
        let mode = match both {
            true => DiscardMode::DiscardReplyAndError,
            false => DiscardMode::DiscardReply,
        };
        self.engine.discard_reply(number, mode).map_err(refused)
    }

    fn poll_reply_or_error(&mut self, number: u64) -> Answer<Option<(Vec<u8>, Vec<u32>)>> {
        self.engine.poll_for_reply_or_error(number).map_err(refused)
    }

    fn poll_check(&mut self, number: u64) -> Answer<Poll> {
        let answer = self.engine.poll_check_for_reply_or_error(number);
        answer.map(polled).map_err(refused)
    }

    fn poll_reply(&mut self, number: u64) -> Answer<Poll> {
        self.engine
            .poll_for_reply(number)
            .map(polled)
            .map_err(refused)
    }

    fn prepare(&mut self, number: u64) -> Answer<bool> {
        let answer = self.engine.prepare_check_for_reply_or_error(number);
        answer.map_err(refused)
    }

    fn poll_event(&mut self) -> Answer<Option<(u64, Vec<u8>, Class)>> {
        let event = self.engine.poll_for_event_with_class().map_err(refused)?;
        Ok(event.map(|(packet, number, class)| (number, packet, self.classes.then_some(class))))
    }

    fn state(&self) -> State {
        let engine = &self.engine;
        let letter = |mode, has_fds| match (mode, has_fds) {
            (None, false) => 'n',
            (None, true) => 'N',
            (Some(DiscardMode::DiscardReply), false) => 'r',
            (Some(DiscardMode::DiscardReply), true) => 'R',
            (Some(DiscardMode::DiscardReplyAndError), false) => 'b',
            (Some(DiscardMode::DiscardReplyAndError), true) => 'B',
        };
        let requests = engine.outstanding().map(|request| Outstanding {
            number: request.number,
            letter: letter(request.discard_mode, request.has_fds),
        });
        let (mut events, mut replies) = (Vec::new(), Vec::new());
        for record in engine.records() {
            match record.place {
                Place::Replies => {
                    replies.push((record.number, record.packet.len(), record.fds.to_vec()))
                }
                _ => events.push((record.number, record.packet.len())),
            }
        }
        State {
            written: engine.last_sequence_written(),
            expected: engine.next_reply_expected(),
            read: engine.last_sequence_read(),
            outstanding: requests.collect(),
            events,
            replies,
            waiting: engine.waiting().to_vec(),
        }
    }

    fn written(&self) -> u64 {
        self.engine.last_sequence_written()
    }

    fn closed(&mut self) -> Vec<u32> {
        self.engine.take_closed_fds().expect("the engine is whole")
    }

    fn show_classes(&mut self) -> bool {
        self.classes = true;
        true
    }

    fn new_reader(&mut self) {
        self.reader = reader(self.order);
    }

    fn room(&mut self) -> &mut [u8] {
        self.reader.buffer()
    }

    fn advance(&mut self, amount: usize) -> Answer<Option<(Vec<u8>, Class)>> {
        let whole = self.reader.try_advance_with_class(amount);
        let whole = whole.map_err(refused)?;
        Ok(whole.map(|(packet, class)| (packet, self.classes.then_some(class))))
    }

    fn new_handshake(&mut self) {
        self.handshake = handshake(self.order);
    }

    fn handshake_room(&mut self) -> &mut [u8] {
        self.handshake.buffer()
    }

    fn handshake_advance(&mut self, amount: usize) -> Answer<bool> {
        self.handshake.try_advance(amount).map_err(refused)
    }

    fn ids(&mut self, base: u32, mask: u32) -> Answer<()> {
        self.ids = IdAllocator::new(base, mask).map_err(|_| refused(Refusal::ZeroMask))?;
        Ok(())
    }

    fn generate(&mut self) -> Answer<u32> {
        let id = self.ids.generate_id();
        id.ok_or_else(|| refused(Refusal::IdsExhausted))
    }

    fn range(&mut self, start_id: u32, count: u32) -> Answer<()> {
        let reply = GetXIDRangeReply {
            start_id,
            count,
            ..Default::default()
        };
        self.ids.try_update_xid_range(&reply).map_err(refused)
    }
}

/// The recorded runs, in the order of their names.
pub fn scripts() -> Vec<PathBuf> {
    files("tests/recorded", "txt")
}

/// The files of a folder of the project with this ending.
pub fn files(folder: &str, ending: &str) -> Vec<PathBuf> {
    let root = PathBuf::from(env!("CARGO_MANIFEST_DIR")).join("..");
    let mut files: Vec<PathBuf> = fs::read_dir(root.join(folder))
        .expect("the folder is there")
        .map(|entry| entry.unwrap().path())
        .filter(|path| path.extension().is_some_and(|e| e == ending))
        .collect();
    files.sort();
    files
}
