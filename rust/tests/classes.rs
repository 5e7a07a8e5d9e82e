//! What kind of packet it is: every call that takes a packet in or hands one out tells its class.

use xiengmado::connection::{Connection, PollReplyWithClass, ReplyFdKind};
use xiengmado::engine::{Engine, Place, MARKS};
use xiengmado::packet_reader::PacketReader;
use xiengmado::PacketClass::{self, *};
use xiengmado::{ByteOrder, DiscardMode, Refusal};

/// First bytes and what they are: both sides of each edge.
const CODES: [(u8, PacketClass); 12] = [
    (0, Error),
    (1, Reply),
    (2, Event),
    (34, Event),
    (35, Generic),
    (36, Event),
    (127, Event),
    (128, SentEvent),
    (129, SentEvent),
    (139, SentEvent),
    (163, SentGeneric),
    (255, SentEvent),
];

/// More bytes than the engine takes of a packet.
const LONG: usize = 65_540;

/// A packet whose length field is 0.
fn sized(code: u8, number: u16, size: usize) -> Vec<u8> {
    let mut bytes = vec![7; size];
    bytes[..8].fill(0);
    bytes[0] = code;
    bytes[2..4].copy_from_slice(&number.to_ne_bytes());
    bytes
}

fn packet(code: u8, number: u16) -> Vec<u8> {
    sized(code, number, 32)
}

/// A connection that sent so many requests with a reply.
fn asked(requests: usize) -> Connection {
    let mut connection = Connection::new();
    connection.send_requests(&vec![ReplyFdKind::ReplyWithoutFDs; requests]);
    connection
}

#[test]
fn the_reader() {
    let mut reader = PacketReader::new();
    for (code, class) in CODES {
        let whole = packet(code, 1);
        reader.buffer()[..31].copy_from_slice(&whole[..31]);
        assert_eq!(reader.try_advance_with_class(31), Ok(None));
        reader.buffer()[0] = whole[31];
        assert_eq!(reader.advance_with_class(1), Some((whole, class)));
    }
    let refused = reader.try_advance_with_class(33);
    assert_eq!(refused, Err(Refusal::OverAdvance));
}

#[test]
fn intake() {
    for (code, class) in CODES {
        let place = match class {
            Error | Reply => Place::Replies,
            _ => Place::Events,
        };
        let (short, long) = (packet(code, 1), sized(code, 1, LONG));
        let mut c = asked(1);
        assert_eq!(c.enqueue_packet_with_class(short.clone()), class);
        assert_eq!(c.enqueue_packet_with_class(long.clone()), class);
        let number = c.engine().last_sequence_read();
        let due = (place, number, class);
        assert_eq!(c.try_enqueue_packet_with_class(&short), Ok(due));
        assert_eq!(c.try_enqueue_long_packet_with_class(short), Ok(due));
        assert_eq!(c.try_enqueue_long_packet_with_class(long), Ok(due));
        let held: Vec<_> = c.engine().records().map(|r| (r.place, r.class())).collect();
        assert_eq!(held, [(place, class); 5]);
    }
}

/// What is dropped is told too; of what is refused nothing is.
#[test]
fn dropped_and_refused() {
    let mut c = asked(1);
    c.discard_reply(1, DiscardMode::DiscardReplyAndError);
    for (code, class) in [(0, Error), (1, Reply)] {
        let filed = c.try_enqueue_packet_with_class(&packet(code, 1));
        assert_eq!(filed, Ok((Place::Dropped, 1, class)));
    }
    let ahead = packet(1, 2);
    let refused = c.try_enqueue_packet_with_class(&ahead);
    assert_eq!(refused, Err(Refusal::Ahead));
    let refused = c.try_enqueue_long_packet_with_class(ahead.clone());
    assert_eq!(refused, Err((Refusal::Ahead, ahead)));
}

#[test]
fn replies_and_errors() {
    let mut c = asked(3);
    for (number, code) in [(1, 1), (1, 0), (2, 0), (2, 1), (3, 1), (3, 0)] {
        c.enqueue_packet(packet(code, number));
    }
    for (code, class) in [(1, Reply), (0, Error)] {
        let (bytes, fds, told) = c.poll_for_reply_or_error_with_class(1).unwrap();
        assert_eq!((bytes, fds.len(), told), (packet(code, 1), 0, class));
    }
    assert!(c.poll_for_reply_or_error_with_class(1).is_none());
    for (code, class) in [(0, Error), (1, Reply)] {
        let due = PollReplyWithClass::Reply(packet(code, 2), class);
        assert_eq!(c.poll_check_for_reply_or_error_with_class(2), due);
    }
    let none = c.poll_check_for_reply_or_error_with_class(2);
    assert_eq!(none, PollReplyWithClass::NoReply);
    let due = PollReplyWithClass::Reply(packet(1, 3), Reply);
    assert_eq!(c.poll_for_reply_with_class(3), due);
    // An error: no reply comes, and among the events it is an error still.
    assert_eq!(c.poll_for_reply_with_class(3), PollReplyWithClass::NoReply);
    let moved = c.poll_for_event_with_class();
    assert_eq!(moved, Some((packet(0, 3), 3, Error)));
    let none = c.poll_for_reply_with_class(4);
    assert_eq!(none, PollReplyWithClass::TryAgain);
}

/// Everything that can stand among the events of a connection that sent three requests: events of each class, an error
/// that DiscardReply lets through, one that was held then, one that a poll for a reply moved, and one of no request.
fn among_events(mut c: Connection, size: usize) -> (Connection, Vec<(Vec<u8>, u64, PacketClass)>) {
    let mut due = Vec::new();
    for (code, class) in CODES.into_iter().filter(|(_, class)| class.is_event()) {
        let event = sized(code, 0, size);
        assert_eq!(c.enqueue_packet_with_class(event.clone()), class);
        due.push((event, 0, class));
    }
    let unasked = sized(0, 0, size);
    assert_eq!(c.enqueue_packet_with_class(unasked.clone()), Error);
    due.push((unasked, 0, Error));
    c.discard_reply(1, DiscardMode::DiscardReply);
    c.enqueue_packet(sized(0, 1, size));
    due.push((sized(0, 1, size), 1, Error));
    c.enqueue_packet(sized(0, 2, size));
    c.discard_reply(2, DiscardMode::DiscardReply);
    due.push((sized(0, 2, size), 2, Error));
    c.enqueue_packet(sized(0, 3, size));
    assert_eq!(c.poll_for_reply_with_class(3), PollReplyWithClass::NoReply);
    due.push((sized(0, 3, size), 3, Error));
    (c, due)
}

#[test]
fn events_one_by_one() {
    for size in [32, LONG] {
        let (mut c, due) = among_events(asked(3), size);
        let events: Vec<_> = std::iter::from_fn(|| c.poll_for_event_with_class()).collect();
        assert!(events == due, "{size} bytes");
    }
}

#[test]
fn many_events() {
    for size in [32, 60, LONG] {
        let (mut c, due) = among_events(asked(3), size);
        assert!(c.poll_for_events_with_class() == due, "{size} bytes");
        assert_eq!(c.poll_for_events_with_class(), []);
    }
}

/// The same through the engine's own call, with room for two or three at a time.
#[test]
fn marks() {
    for size in [32, LONG] {
        let (c, due) = among_events(asked(3), size);
        let mut engine: Engine = c.engine().clone();
        let (mut out, mut found) = (vec![0; 3 * LONG], Vec::new());
        for room in [2, 3].into_iter().cycle() {
            let mut marks = vec![0; MARKS * room + 2];
            let handed = engine.poll_for_events(&mut out, &mut marks).unwrap();
            for mark in marks[..MARKS * handed.count].chunks(MARKS) {
                assert_eq!(mark[1], size as u64);
                found.push((mark[0], PacketClass::from_number(mark[2]).unwrap()));
            }
            if handed.count == 0 {
                break;
            }
        }
        let due: Vec<_> = due.into_iter().map(|event| (event.1, event.2)).collect();
        assert_eq!(found, due, "{size} bytes");
    }
}

/// A restored client tells the same of what it holds, and of what its reader begins with.
#[test]
fn restored() {
    let (c, due) = among_events(asked(3), 32);
    let mut reader = PacketReader::with_buffer(ByteOrder::NATIVE, 64).unwrap();
    reader.buffer()[..20].copy_from_slice(&packet(163, 1)[..20]);
    assert_eq!(reader.advance(20), None);
    let ids = xiengmado::id_allocator::IdAllocator::new(0, 1).unwrap();
    let bytes = xiengmado::savepoint::save(&c, &reader, &ids).unwrap();
    let (mut c, mut reader, _) = xiengmado::savepoint::restore(&bytes).unwrap();
    assert_eq!(c.poll_for_events_with_class(), due);
    reader.buffer().copy_from_slice(&packet(163, 1)[20..]);
    let whole = reader.advance_with_class(12);
    assert_eq!(whole, Some((packet(163, 1), SentGeneric)));
}
