//! Packets over 65,536 bytes: kept beside the engine, handed out whole in every way, gone with their heads.

use xiengmado::connection::{Connection, PollReply, ReplyFdKind};
use xiengmado::engine::{Engine, Halt, Handed, Place, Stop};
use xiengmado::id_allocator::IdAllocator;
use xiengmado::packet_reader::PacketReader;
use xiengmado::savepoint::SaveError;
use xiengmado::{ByteOrder, DiscardMode, PacketClass, Refusal};

const REPLY: DiscardMode = DiscardMode::DiscardReply;
const BOTH: DiscardMode = DiscardMode::DiscardReplyAndError;

/// A packet whose bytes are those of no other tag. Its length field is always zero.
fn packet(kind: u8, number: u16, tag: u8, size: usize) -> Vec<u8> {
    let mut bytes: Vec<u8> = (0..size).map(|i| (i % 251) as u8 ^ tag).collect();
    bytes[..8].fill(0);
    bytes[0] = kind;
    bytes[2..4].copy_from_slice(&number.to_ne_bytes());
    bytes
}

fn long(kind: u8, number: u16, tag: u8) -> Vec<u8> {
    packet(kind, number, tag, 65_537 + usize::from(tag))
}

fn short(kind: u8, number: u16, tag: u8) -> Vec<u8> {
    packet(kind, number, tag, 32)
}

/// An engine that sent so many requests with a reply, and took these packets in.
fn engine(requests: usize, packets: &[Vec<u8>]) -> Engine {
    let mut engine = Engine::new(ByteOrder::NATIVE, 16, 4096).unwrap();
    for _ in 0..requests {
        engine.send_request(ReplyFdKind::ReplyWithFDs).unwrap();
    }
    for packet in packets {
        engine.enqueue_long_packet(packet.clone()).unwrap();
    }
    engine
}

/// Everything that is held, by place.
fn held(engine: &Engine, place: Place) -> Vec<Vec<u8>> {
    let records = engine.records().filter(|record| record.place == place);
    records.map(|record| record.packet.to_vec()).collect()
}

/// Whether a long packet is kept beside the engine: a savepoint says so.
fn keeps(engine: &Engine) -> bool {
    let (reader, ids) = (PacketReader::new(), IdAllocator::new(0, 1).unwrap());
    engine.savepoint_length(&reader, &ids) == Err(SaveError::LongPacket)
}

fn event(engine: &mut Engine) -> Option<Vec<u8>> {
    let event = engine.poll_for_event_with_sequence().unwrap();
    event.map(|(packet, _)| packet)
}

#[test]
fn the_least_long_packet() {
    for size in [65_535, 65_536, 65_537] {
        let packet = packet(2, 1, 7, size);
        let mut engine = Engine::new(ByteOrder::NATIVE, 1, 65_552).unwrap();
        engine.send_request(ReplyFdKind::NoReply).unwrap();
        let refused = engine.enqueue_packet(&packet) == Err(Refusal::LongPacket);
        assert_eq!(refused, size > 65_536);
        if refused {
            engine.enqueue_long_packet(packet.clone()).unwrap();
        }
        assert_eq!(engine.used(), if refused { 48 } else { 16 + size });
        assert_eq!(keeps(&engine), refused);
        assert!(event(&mut engine) == Some(packet));
        assert!(!keeps(&engine));
    }
}

#[test]
fn handed_out_in_every_way() {
    let packets = [
        short(2, 1, 1),
        long(1, 1, 2),
        short(1, 1, 3),
        long(1, 1, 4),
        long(1, 2, 5),
        long(35, 2, 6),
        short(3, 2, 7),
    ];
    let mut engine = engine(2, &packets);
    let replies = [1, 2, 3, 4].map(|at| packets[at].clone());
    assert!(held(&engine, Place::Replies) == replies);
    assert!(held(&engine, Place::Events) == [0, 5, 6].map(|at| packets[at].clone()));
    let [first, second, third, fourth] = replies;
    let taken = engine.poll_for_reply_or_error(1).unwrap().unwrap();
    assert!(taken == (first, vec![]));
    assert!(engine.poll_check_for_reply_or_error(1) == Ok(PollReply::Reply(second)));
    assert!(engine.poll_for_reply(1) == Ok(PollReply::Reply(third)));
    assert!(engine.poll_for_reply(2) == Ok(PollReply::Reply(fourth)));
    for at in [0, 5, 6] {
        assert!(event(&mut engine) == Some(packets[at].clone()));
    }
    assert_eq!(event(&mut engine), None);
    assert!(!keeps(&engine));
}

#[test]
fn descriptors_go_with_the_head() {
    let mut engine = engine(2, &[]);
    engine.enqueue_fds(&[7, 8, 9]).unwrap();
    let (mut first, mut second) = (long(1, 1, 1), long(1, 2, 2));
    (first[1], second[1]) = (2, 2);
    engine.enqueue_long_packet(first.clone()).unwrap();
    let (refusal, second) = engine.enqueue_long_packet(second).unwrap_err();
    assert_eq!(refusal, Refusal::FewDescriptors);
    engine.enqueue_fds(&[10]).unwrap();
    engine.enqueue_long_packet(second).unwrap();
    assert!(engine.poll_for_reply_or_error(1) == Ok(Some((first, vec![7, 8]))));
    engine.discard_reply(2, BOTH).unwrap();
    assert_eq!(engine.take_closed_fds(), Ok(vec![9, 10]));
    assert!(!keeps(&engine));
}

#[test]
fn errors_that_become_events_stay_long() {
    let (own, error) = (long(2, 1, 1), long(0, 1, 2));
    let mut engine = engine(2, &[error.clone(), short(0, 1, 3), own.clone()]);
    assert_eq!(engine.poll_for_reply(1), Ok(PollReply::NoReply));
    assert!(held(&engine, Place::Replies) == [short(0, 1, 3)]);
    assert!(held(&engine, Place::Events) == [own, error]);
    engine.enqueue_long_packet(long(0, 2, 4)).unwrap();
    engine.enqueue_packet(&short(2, 2, 5)).unwrap();
    assert_eq!(engine.poll_for_reply(2), Ok(PollReply::NoReply));
    assert_eq!(engine.poll_for_reply(1), Ok(PollReply::NoReply));
    let events = [
        long(2, 1, 1),
        long(0, 1, 2),
        short(2, 2, 5),
        long(0, 2, 4),
        short(0, 1, 3),
    ];
    assert!(events
        .into_iter()
        .all(|due| event(&mut engine) == Some(due)));
    assert!(!keeps(&engine));
}

#[test]
fn discarded() {
    let packets = [
        long(1, 1, 1),
        long(0, 2, 2),
        long(1, 2, 3),
        short(0, 2, 4),
        long(0, 2, 5),
        long(1, 3, 6),
    ];
    let mut engine = engine(3, &packets);
    let mut other = engine.clone();
    engine.discard_reply(2, REPLY).unwrap();
    other.discard_reply(2, BOTH).unwrap();
    let events = [long(0, 2, 2), short(0, 2, 4), long(0, 2, 5)];
    assert!(held(&engine, Place::Events) == events);
    assert!(held(&other, Place::Events).is_empty());
    for engine in [&mut engine, &mut other] {
        assert!(held(engine, Place::Replies) == [long(1, 1, 1), long(1, 3, 6)]);
        engine.discard_reply(1, REPLY).unwrap();
        assert!(keeps(engine));
        engine.discard_reply(3, REPLY).unwrap();
    }
    assert!(!keeps(&other));
    assert!(events
        .into_iter()
        .all(|due| event(&mut engine) == Some(due)));
    assert!(!keeps(&engine));
}

#[test]
fn dropped_at_intake() {
    let mut engine = engine(2, &[]);
    engine.discard_reply(1, REPLY).unwrap();
    engine.discard_reply(2, BOTH).unwrap();
    let mut enqueue = |packet| engine.enqueue_long_packet(packet).unwrap();
    assert_eq!(enqueue(long(1, 1, 1)), (Place::Dropped, 1));
    assert_eq!(enqueue(long(0, 1, 2)), (Place::Events, 1));
    assert_eq!(enqueue(long(1, 2, 3)), (Place::Dropped, 2));
    assert_eq!(enqueue(long(0, 2, 4)), (Place::Dropped, 2));
    assert!(event(&mut engine) == Some(long(0, 1, 2)));
    assert!(!keeps(&engine));
}

#[test]
fn without_room_it_comes_back() {
    let mut engine = Engine::new(ByteOrder::NATIVE, 1, 48).unwrap();
    engine.send_request(ReplyFdKind::NoReply).unwrap();
    engine.enqueue_packet(&short(2, 1, 1)).unwrap();
    let (refusal, packet) = engine.enqueue_long_packet(long(2, 1, 2)).unwrap_err();
    assert!((refusal, &packet) == (Refusal::NoRoom, &long(2, 1, 2)));
    assert_eq!(event(&mut engine), Some(short(2, 1, 1)));
    engine.enqueue_long_packet(packet).unwrap();
    assert!(event(&mut engine) == Some(long(2, 1, 2)));
}

/// Also where others are kept: nothing is changed until one more request was sent.
#[test]
fn an_answer_to_nothing_comes_back() {
    let mut engine = engine(1, &[long(2, 1, 1)]);
    let before = format!("{engine:?}");
    let (refusal, packet) = engine.enqueue_long_packet(long(1, 2, 2)).unwrap_err();
    assert!((refusal, &packet) == (Refusal::Ahead, &long(1, 2, 2)));
    assert!(format!("{engine:?}") == before);
    let keymap = engine.enqueue_long_packet(long(11, 2, 3));
    assert_eq!(keymap.unwrap(), (Place::Events, 1));
    engine.send_request(ReplyFdKind::ReplyWithoutFDs).unwrap();
    engine.enqueue_long_packet(packet).unwrap();
    assert!(engine.poll_for_reply(2) == Ok(PollReply::Reply(long(1, 2, 2))));
}

#[test]
fn one_after_the_other() {
    let mut engine = engine(1, &[]);
    for tag in 1..4 {
        let packets = [long(2, 1, tag), short(3, 1, tag), short(4, 1, tag)];
        for packet in &packets {
            engine.enqueue_long_packet(packet.clone()).unwrap();
        }
        for packet in packets {
            assert!(event(&mut engine) == Some(packet));
            assert!(!keeps(&engine));
        }
    }
}

#[test]
fn among_runs_of_short_packets() {
    let mut engine = engine(3, &[short(2, 1, 1), long(1, 1, 2)]);
    engine.discard_reply(2, BOTH).unwrap();
    let run = [
        short(3, 1, 3),
        short(0, 2, 4),
        short(1, 3, 5),
        short(4, 3, 6),
    ];
    let fed = engine.enqueue_packets(&run.concat()).unwrap();
    assert_eq!((fed.packets, fed.halt), (4, Halt::End));
    engine.enqueue_long_packet(long(5, 3, 7)).unwrap();
    assert!(engine.poll_for_reply(3) == Ok(PollReply::Reply(short(1, 3, 5))));
    assert!(engine.poll_for_reply(1) == Ok(PollReply::Reply(long(1, 1, 2))));
    let events = [
        short(2, 1, 1),
        short(3, 1, 3),
        short(4, 3, 6),
        long(5, 3, 7),
    ];
    assert!(events
        .into_iter()
        .all(|due| event(&mut engine) == Some(due)));
}

#[test]
fn behind_a_run_of_short_packets() {
    let mut engine = engine(1, &[long(0, 1, 1)]);
    let run = [short(2, 1, 2), short(3, 1, 3)];
    engine.enqueue_packets(&run.concat()).unwrap();
    assert_eq!(engine.poll_for_reply(1), Ok(PollReply::NoReply));
    let events = [short(2, 1, 2), short(3, 1, 3), long(0, 1, 1)];
    assert!(events
        .into_iter()
        .all(|due| event(&mut engine) == Some(due)));
}

#[test]
fn many_events_at_once() {
    let packets = [short(2, 1, 1), long(3, 1, 2), short(4, 1, 3)];
    let (mut out, mut marks) = (vec![0; 70_000], [0; 6]);
    let mut engine = engine(1, &packets);
    let short = Stop::Refused(Refusal::OutShort);
    let mut poll = |out: &mut [u8], marks: &mut [u64]| engine.poll_for_events(out, marks);
    let handed = |count, bytes, stop| Ok(Handed { count, bytes, stop });
    assert_eq!(poll(&mut out[..31], &mut marks), Err(Refusal::OutShort));
    assert_eq!(poll(&mut out[..65_000], &mut marks), handed(1, 32, short));
    assert_eq!(poll(&mut out, &mut marks[..2]), Err(Refusal::OutShort));
    assert_eq!(poll(&mut out, &mut marks[..3]), handed(1, 65_539, short));
    let due = [1, 65_539, PacketClass::Event.number()];
    assert!((&out[..65_539], &marks[..3]) == (&packets[1][..], &due));
    assert_eq!(poll(&mut out, &mut marks), handed(1, 32, Stop::End));
}

#[test]
fn by_the_calls_of_a_connection() {
    let mut c = Connection::new();
    c.send_request(ReplyFdKind::ReplyWithoutFDs);
    for packet in [short(2, 0, 1), long(3, 0, 2), long(1, 1, 3), long(2, 1, 4)] {
        c.enqueue_packet(packet);
    }
    let refused = c.try_enqueue_packet(&long(2, 1, 5));
    assert_eq!(refused, Err(Refusal::LongPacket));
    c.try_enqueue_packet(&short(2, 1, 6)).unwrap();
    let events = c.poll_for_events();
    let due = [
        (short(2, 0, 1), 0),
        (long(3, 0, 2), 0),
        (long(2, 1, 4), 1),
        (short(2, 1, 6), 1),
    ];
    assert!(events == due);
    c.try_enqueue_long_packet(short(2, 1, 7)).unwrap();
    assert!(c.poll_for_reply(1) == PollReply::Reply(long(1, 1, 3)));
    assert_eq!(c.poll_for_events(), [(short(2, 1, 7), 1)]);
    let (refusal, packet) = c.try_enqueue_long_packet(vec![2; 31]).unwrap_err();
    assert_eq!((refusal, packet.len()), (Refusal::ShortPacket, 31));
}
