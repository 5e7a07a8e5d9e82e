//! Savepoints: saved anywhere in a run and restored in rooms full of something else, a client goes on
//! as if nothing had been; equal states have equal bytes; bytes that are no savepoint are refused.

#[allow(dead_code)]
#[path = "../beside/src/chance.rs"]
mod chance;
#[allow(dead_code)]
mod ours;
#[allow(dead_code)]
#[path = "../examples/shared/player.rs"]
mod player;
#[allow(dead_code)]
mod replay;

use std::fs;

use chance::Chance;
use ours::Ours;
use player::{Log, Place, Player};
use xiengmado::connection::{Connection, PollReply, ReplyFdKind};
use xiengmado::engine::Engine;
use xiengmado::id_allocator::IdAllocator;
use xiengmado::packet_reader::PacketReader;
use xiengmado::protocol::xc_misc::GetXIDRangeReply;
use xiengmado::savepoint::SaveError;
use xiengmado::{savepoint, ByteOrder, DiscardMode, Refusal};

const BOTH: DiscardMode = DiscardMode::DiscardReplyAndError;

/// Rooms of these lengths whose every byte was used for something.
fn used(requests: usize, store: usize, buffer: usize) -> Player {
    let mut client = Player::new(requests, store, buffer).expect("rooms in range");
    let kinds = vec![ReplyFdKind::ReplyWithFDs; requests];
    assert_eq!(client.engine.send_requests(&kinds).unwrap().0, requests);
    for number in 1..=requests.min(1000) as u64 {
        client.engine.discard_reply(number, BOTH).unwrap();
    }
    let event = packet(0xee, 0xee, 1, 0xee, 32);
    let count = store / 48;
    let fed = client.engine.enqueue_packets(&event.repeat(count)).unwrap();
    assert_eq!(fed.packets, count);
    let units = ((buffer - 32) / 4) as u32;
    let begin = [&[1, 0xdd, 0xdd, 0xdd], &units.to_le_bytes()[..]].concat();
    for byte in begin
        .into_iter()
        .chain(vec![0xdd; buffer])
        .take(32 + 4 * units as usize - 1)
    {
        client.reader.buffer()[0] = byte;
        assert_eq!(client.reader.advance(1), None);
    }
    client
}

/// A client before a piece of its stream: which piece, where, how many answers there were, and its
/// savepoint.
struct Stop {
    piece: usize,
    at: Place,
    answers: usize,
    bytes: Vec<u8>,
}

/// The sizes of pieces, over and over: within a packet's first bytes, at their end, behind it.
const PIECES: [usize; 4] = [7, 25, 13, 9_000];

/// Feeds a piece; false at the end.
fn feed(client: &mut Player, stream: &[u8], piece: usize, at: &mut Place, log: &mut Log) -> bool {
    let end = at.bytes + PIECES[piece % PIECES.len()];
    client.step(stream, at, end, log)
}

/// A run with a stop before each piece, all its answers, and its last savepoint.
fn run(client: &mut Player, stream: &[u8]) -> (Vec<Stop>, Log, Vec<u8>) {
    let (mut at, mut log, mut stops) = (Place::default(), Log::new(), Vec::new());
    for piece in 0.. {
        stops.push(Stop {
            piece,
            at,
            answers: log.len(),
            bytes: client.save().unwrap(),
        });
        if !feed(client, stream, piece, &mut at, &mut log) {
            break;
        }
    }
    (stops, log, client.save().unwrap())
}

#[test]
fn streams_go_on() {
    let mut restored = 0;
    for file in ours::files("tests/streams", "bin") {
        let stream = fs::read(&file).unwrap();
        for (requests, store, buffer) in [(65_536, 1 << 20, 65_536), (65_536, 2_000, 4_000)] {
            let mut client = Player::new(requests, store, buffer).unwrap();
            let (stops, log, last) = run(&mut client, &stream);
            let mut other = used(requests, store, buffer);
            for mut stop in stops {
                let place = format!("{} from {:?}", file.display(), stop.at);
                other.restore_into(&stop.bytes).unwrap();
                assert!(other.save().as_ref() == Ok(&stop.bytes), "{place}");
                let mut later = Log::new();
                while feed(&mut other, &stream, stop.piece, &mut stop.at, &mut later) {
                    stop.piece += 1;
                }
                assert!(later == log[stop.answers..], "{place}");
                assert!(other.save().as_ref() == Ok(&last), "{place}");
                restored += 1;
            }
        }
    }
    println!("savepoint: {restored} clients of recorded streams went on");
    assert!(restored > 900, "only {restored} were restored");
}

/// A side that is saved after every op and goes on as what was restored, in rooms of the client before.
struct Relay {
    ours: Ours,
    spare: Option<(Engine, PacketReader)>,
    restored: usize,
}

impl Relay {
    fn hand_over(&mut self) {
        let Ours {
            engine,
            reader,
            ids,
            ..
        } = &mut self.ours;
        let bytes = match engine.save(reader, ids) {
            Ok(bytes) => bytes,
            Err(error) => {
                assert_eq!(error, Refusal::HasDescriptors.into());
                return assert!(!engine.inside().is_empty());
            }
        };
        assert!(engine.inside().is_empty());
        let mut other = IdAllocator::new(7, 7).unwrap();
        let (mut rooms, mut buffer) = self.spare.take().unwrap_or_else(|| {
            let (engine, reader, _) = Engine::restore(&bytes).unwrap();
            (engine, reader)
        });
        if let Err(refusal) = rooms.restore_into(&bytes, &mut buffer, &mut other) {
            // The script has made a connection with other rooms.
            assert_eq!(refusal, Refusal::BadRoom);
            (rooms, buffer, other) = Engine::restore(&bytes).unwrap();
        }
        assert_eq!(rooms.save(&buffer, &other), Ok(bytes));
        let before = std::mem::replace(engine, rooms);
        self.spare = Some((before, std::mem::replace(reader, buffer)));
        *ids = other;
        self.restored += 1;
    }
}

#[test]
fn recorded_answers_from_restored_clients() {
    let mut restored = 0;
    for script in ours::scripts() {
        let answers = fs::read_to_string(script.with_extension("out")).unwrap();
        let mut answers = answers.lines();
        let mut relay = Relay {
            ours: Ours::fresh(),
            spare: None,
            restored: 0,
        };
        let text = fs::read_to_string(&script).unwrap();
        for line in text
            .lines()
            .filter(|l| !l.is_empty() && !l.starts_with('#'))
        {
            let answer = replay::op(line, &mut relay.ours).unwrap();
            assert_eq!(
                Some(&answer[..]),
                answers.next(),
                "{}: {line}",
                script.display()
            );
            relay.hand_over();
        }
        restored += relay.restored;
    }
    println!("savepoint: {restored} clients of recorded runs went on");
    assert!(restored > 3000, "only {restored} were restored");
}

/// A call that chance picked.
enum Call {
    Send(ReplyFdKind),
    Fds(Vec<u32>),
    Packet(Vec<u8>),
    Discard(u64, DiscardMode),
    Reply(u64),
    Check(u64),
    ReplyOrError(u64),
    Event,
    Close,
    Bytes(Vec<u8>),
    Id,
    Range(u32, u32),
}

/// Calls near what a client has: its last numbers, packets that it waits for, and in some runs now and
/// then a descriptor.
fn some_call(chance: &mut Chance, client: &Player, fds: bool) -> Call {
    use ReplyFdKind::*;
    let (read, written) = (
        client.engine.last_sequence_read(),
        client.engine.last_sequence_written(),
    );
    let number = read + chance.below(written.saturating_sub(read) + 1);
    let code = chance.pick(&[0, 1, 1, 2, 11, 35, 163]);
    let size = 32 + 4 * chance.below(6) as usize;
    match chance.below(20) {
        0..=4 => Call::Send(chance.pick(&[NoReply, ReplyWithoutFDs, ReplyWithFDs])),
        5 if fds && chance.once(8) => Call::Fds(vec![3; 1 + chance.below(2) as usize]),
        5..=8 => Call::Packet(packet(
            code,
            chance.below(2) as u8,
            number,
            chance.below(256) as u8,
            size,
        )),
        9 => Call::Discard(number, DiscardMode::DiscardReply),
        10 => Call::Discard(number + 1, BOTH),
        11 => Call::Reply(number),
        12 => Call::Check(number),
        13 => Call::ReplyOrError(number),
        14 => Call::Event,
        15 => Call::Close,
        16..=17 => {
            let whole = packet(code, 0, number, 9, size);
            Call::Bytes(whole[..chance.below(40).min(size as u64) as usize].to_vec())
        }
        18 => Call::Id,
        _ => Call::Range(chance.below(1 << 32) as u32, chance.below(9) as u32),
    }
}

/// What a client answers to a call.
fn answer(client: &mut Player, call: &Call) -> String {
    let e = &mut client.engine;
    match call {
        Call::Send(kind) => format!("{:?}", e.send_request(*kind)),
        Call::Fds(fds) => format!("{:?}", e.enqueue_fds(fds)),
        Call::Packet(packet) => format!("{:?}", e.enqueue_packet_with_class(packet)),
        Call::Discard(number, mode) => format!("{:?}", e.discard_reply(*number, *mode)),
        Call::Reply(number) => format!("{:?}", e.poll_for_reply_with_class(*number)),
        Call::Check(number) => format!("{:?}", e.poll_check_for_reply_or_error_with_class(*number)),
        Call::ReplyOrError(number) => {
            format!("{:?}", e.poll_for_reply_or_error_with_class(*number))
        }
        Call::Event => format!("{:?}", e.poll_for_event_with_class()),
        Call::Close => format!("{:?}", e.take_closed_fds()),
        Call::Bytes(bytes) => {
            let n = bytes.len().min(client.reader.buffer().len());
            client.reader.buffer()[..n].copy_from_slice(&bytes[..n]);
            format!("{:?}", client.reader.try_advance_with_class(n))
        }
        Call::Id => format!("{:?}", client.ids.generate_id()),
        Call::Range(start_id, count) => {
            let (start_id, count) = (*start_id, *count);
            let range = GetXIDRangeReply {
                start_id,
                count,
                ..Default::default()
            };
            format!("{:?}", client.ids.try_update_xid_range(&range))
        }
    }
}

/// After how many calls each copy of a client is restored anew.
const LIVES: [usize; 4] = [1, 6, 45, 400];

/// One run: copies that were restored before answer every call as the client does, and have its
/// savepoint after it. How many were restored.
fn generated(seed: u64, from: u64) -> usize {
    let mut chance = Chance::new(seed, "", 0);
    let rooms = (
        1 + chance.below(12) as usize,
        48 + chance.below(900) as usize,
    );
    let mut client = Player::new(rooms.0, rooms.1, 32 + chance.below(60) as usize).unwrap();
    if from > 0 {
        client.engine = Engine::after(ByteOrder::Little, rooms.0, rooms.1, from).unwrap();
    }
    let (mut copies, mut restored) = (LIVES.map(|_| None::<Player>), 0);
    for turn in 0..2_000 {
        let saved = client.save();
        assert_eq!(saved.is_err(), !client.engine.inside().is_empty());
        for (copy, life) in copies.iter_mut().zip(LIVES) {
            match (&saved, &mut *copy) {
                (Ok(bytes), None) => *copy = Some(Player::restore(bytes).unwrap()),
                (Ok(bytes), Some(copy)) if turn % life == 0 => copy.restore_into(bytes).unwrap(),
                _ => continue,
            }
            restored += 1;
        }
        let call = some_call(&mut chance, &client, seed % 5 == 1);
        let due = answer(&mut client, &call);
        for copy in copies.iter_mut().flatten() {
            assert_eq!(answer(copy, &call), due, "seed {seed}, call {turn}");
            assert!(copy.save() == client.save(), "seed {seed}, call {turn}");
        }
    }
    restored
}

#[test]
fn generated_runs_go_on() {
    let last = i64::MAX as u64;
    let restored: usize = (1..=60)
        .map(|seed| generated(seed, [0, 65_530, 1 << 32, last - 300][seed as usize % 4]))
        .sum();
    println!("savepoint: {restored} clients of generated runs went on");
    assert!(restored > 100_000, "only {restored} were restored");
}

/// A packet of this length: a code, a number and bytes that go up from a first one.
fn packet(code: u8, detail: u8, number: u64, first: u8, size: usize) -> Vec<u8> {
    let mut bytes = [&[code, detail], &(number as u16).to_le_bytes()[..]].concat();
    if code == 1 {
        bytes.extend((size as u32 / 4 - 8).to_le_bytes());
    }
    let rest = size - bytes.len();
    bytes.extend((0..rest).map(|i| first.wrapping_add(i as u8)));
    bytes
}

/// The client of the page: sends, discards and packets up to number 70,000.
fn worked() -> (Engine, PacketReader, IdAllocator) {
    use ReplyFdKind::*;
    let mut engine = Engine::after(ByteOrder::Little, 16, 4096, 69_995).unwrap();
    for kind in [
        ReplyWithoutFDs,
        NoReply,
        ReplyWithoutFDs,
        ReplyWithFDs,
        NoReply,
    ] {
        engine.send_request(kind).unwrap();
    }
    engine
        .discard_reply(69_998, DiscardMode::DiscardReply)
        .unwrap();
    engine.discard_reply(69_999, BOTH).unwrap();
    engine
        .enqueue_packet(&packet(1, 7, 69_996, 0xa0, 36))
        .unwrap();
    engine
        .enqueue_packet(&packet(28, 0, 69_997, 0xc0, 32))
        .unwrap();
    engine.enqueue_packet(&packet(1, 0, 69_998, 0, 32)).unwrap();
    let mut reader = PacketReader::with_buffer(ByteOrder::Big, 1024).unwrap();
    reader.buffer()[..5].copy_from_slice(&[1, 9, 0x11, 0x6f, 0]);
    assert_eq!(reader.advance(5), None);
    let mut ids = IdAllocator::new(0x60_0000, 0x1f_fffe).unwrap();
    assert_eq!(
        [ids.generate_id(), ids.generate_id()],
        [Some(0x60_0000), Some(0x60_0002)]
    );
    (engine, reader, ids)
}

/// The bytes of the page's block: behind a place, up to two blanks.
fn block() -> Vec<u8> {
    let page = concat!(env!("CARGO_MANIFEST_DIR"), "/../docs/SAVEPOINT.md");
    let page = fs::read_to_string(page).expect("the page");
    let block = page.split("```savepoint\n").nth(1).expect("the block");
    let lines = block.split("```").next().unwrap().lines();
    let digits = lines.map(|line| line.trim_start().split_once("  ").unwrap().1);
    digits
        .flat_map(|line| line.split("  ").next().unwrap().split(' '))
        .map(|byte| u8::from_str_radix(byte, 16).unwrap())
        .collect()
}

#[test]
fn the_pages_client() {
    let (engine, reader, ids) = worked();
    assert_eq!(engine.savepoint_length(&reader, &ids), Ok(224));
    assert_eq!(engine.save(&reader, &ids), Ok(block()));
    let (again, reader, ids) = Engine::restore(&block()).unwrap();
    assert_eq!(again.save(&reader, &ids), Ok(block()));
    assert!(again.outstanding().eq(engine.outstanding()));
    assert_eq!(again.used(), engine.used());
    assert_eq!(reader.remaining_capacity(), 27);
    assert_eq!(ids.numbers(), (0x60_0004, 0x7f_fffe, 2));
}

#[test]
fn cut_or_longer() {
    let whole = block();
    for size in 0..whole.len() {
        assert_eq!(
            Engine::restore(&whole[..size]).err(),
            Some(Refusal::BadSavepoint),
            "{size}"
        );
    }
    let longer = [&whole[..], &[0]].concat();
    assert_eq!(Engine::restore(&longer).err(), Some(Refusal::BadSavepoint));
}

/// Each byte as each other one: refused by 19, or the savepoint of what was restored.
#[test]
fn any_byte_changed() {
    let (mut bytes, mut kept) = (block(), 0);
    for at in 0..bytes.len() {
        let was = bytes[at];
        for value in (0..=255).filter(|&value| value != was) {
            bytes[at] = value;
            match Engine::restore(&bytes) {
                Ok((engine, reader, ids)) => {
                    kept += 1;
                    assert!(
                        engine.save(&reader, &ids).as_ref() == Ok(&bytes),
                        "{at}: {value}"
                    );
                }
                Err(refusal) => assert_eq!(refusal, Refusal::BadSavepoint, "{at}: {value}"),
            }
        }
        bytes[at] = was;
    }
    println!(
        "savepoint: {kept} of {} changed copies are savepoints too",
        255 * bytes.len()
    );
    assert!(kept > 10_000);
}

/// A client that has read more than was written, which no run leads to: it refuses every packet that has a number.
#[test]
fn read_above_written() {
    let mut bytes = block();
    bytes[20..28].copy_from_slice(&70_001u64.to_le_bytes());
    let (mut engine, reader, ids) = Engine::restore(&bytes).unwrap();
    for number in 0..1 << 16 {
        let refused = engine.enqueue_packet(&packet(2, 0, number, 0, 32));
        assert_eq!(refused, Err(Refusal::Ahead), "{number}");
    }
    assert_eq!(engine.save(&reader, &ids), Ok(bytes));
    let keymap = engine.enqueue_packet(&packet(139, 0, 0, 0, 32));
    assert_eq!(keymap.unwrap().1, 70_001);
    engine.send_request(ReplyFdKind::ReplyWithoutFDs).unwrap();
    let reply = engine.enqueue_packet(&packet(1, 0, 70_001, 0, 32));
    assert_eq!(reply.unwrap().1, 70_001);
}

/// The same state by three ways: records at other places, replies among the events otherwise.
#[test]
fn equal_states_have_equal_bytes() {
    let order = ByteOrder::Little;
    let ids = IdAllocator::new(0, 0xff).unwrap();
    let (event, reply) = (
        |n, first| packet(2, 0, n, first, 32),
        |n| packet(1, 0, n, 0x50, 44),
    );
    let made = |packets: &[Vec<u8>], taken: usize| {
        let mut engine = Engine::new(order, 5, 400).unwrap();
        for _ in 0..7 {
            engine.send_request(ReplyFdKind::ReplyWithoutFDs).unwrap();
            let sent = engine.last_sequence_written();
            if sent == 4 {
                engine.enqueue_packet(&event(4, 0)).unwrap();
                assert!(engine.poll_for_event_with_sequence().unwrap().is_some());
            }
        }
        for packet in packets {
            engine.enqueue_packet(packet).unwrap();
        }
        for _ in 0..taken {
            assert!(engine.poll_for_event_with_sequence().unwrap().is_some());
        }
        engine
    };
    let (a, b) = (event(6, 0x10), event(6, 0x20));
    let engines = [
        made(&[reply(5), reply(6), a.clone(), b.clone()], 0),
        made(&[reply(5), a.clone(), reply(6), b.clone()], 0),
        made(&[event(5, 0), reply(5), event(5, 1), a, reply(6), b], 2),
    ];
    let reader = PacketReader::with_buffer(order, 64).unwrap();
    let mut other = PacketReader::with_buffer(order, 64).unwrap();
    other.buffer().fill(9);
    assert_eq!(other.advance(0), None);
    let bytes = engines[0].save(&reader, &ids).unwrap();
    for engine in &engines {
        assert_eq!(engine.save(&other, &ids).as_ref(), Ok(&bytes));
    }
    let places = |e: &Engine| e.records().map(|r| r.place).collect::<Vec<_>>();
    assert_ne!(places(&engines[0]), places(&engines[1]));
}

#[test]
fn refusals() {
    let reader = PacketReader::with_buffer(ByteOrder::Little, 64).unwrap();
    let ids = IdAllocator::new(0, 0xff).unwrap();
    let mut engine = Engine::new(ByteOrder::Little, 8, 200).unwrap();
    let mut out = [7; 200];
    assert_eq!(
        engine.save_into(&reader, &ids, &mut out[..115]),
        Err(Refusal::OutShort.into())
    );
    assert_eq!(out, [7; 200]);
    assert_eq!(engine.save_into(&reader, &ids, &mut out), Ok(116));
    assert_eq!(out[116..], [7; 84]);
    // a descriptor waits, is held, and is to be closed
    let has = Err(Refusal::HasDescriptors.into());
    engine.send_request(ReplyFdKind::ReplyWithFDs).unwrap();
    engine.enqueue_fds(&[3]).unwrap();
    assert_eq!(engine.savepoint_length(&reader, &ids), has);
    assert_eq!(engine.save_into(&reader, &ids, &mut []), has);
    engine.enqueue_packet(&packet(1, 1, 1, 0, 32)).unwrap();
    assert_eq!(engine.save_into(&reader, &ids, &mut out), has);
    assert!(matches!(engine.poll_for_reply(1), Ok(PollReply::Reply(_))));
    assert_eq!(engine.savepoint_length(&reader, &ids), has);
    assert_eq!(engine.take_closed_fds(), Ok(vec![3]));
    assert_eq!(engine.savepoint_length(&reader, &ids), Ok(117));
}

/// Rooms of another length are refused, after bytes that are no savepoint, and nothing is changed.
#[test]
fn other_rooms() {
    let bytes = block();
    for (requests, store, buffer) in [
        (15, 4096, 1024),
        (17, 4096, 1024),
        (16, 4095, 1024),
        (16, 4096, 1023),
    ] {
        let mut client = used(requests, store, buffer);
        let before = client.save().unwrap();
        assert_eq!(client.restore_into(&bytes), Err(Refusal::BadRoom));
        assert_eq!(client.restore_into(&bytes[1..]), Err(Refusal::BadSavepoint));
        assert_eq!(client.save(), Ok(before));
    }
    let mut client = used(16, 4096, 1024);
    assert_eq!(
        client.restore_into(&bytes[..223]),
        Err(Refusal::BadSavepoint)
    );
    assert_eq!(client.restore_into(&bytes), Ok(()));
    assert_eq!(client.save(), Ok(bytes));
}

#[test]
fn a_connection() {
    let (mut connection, reader) = (Connection::new(), PacketReader::new());
    let ids = IdAllocator::new(0x20_0000, 0x1f_ffff).unwrap();
    for _ in 0..3 {
        connection.send_request(ReplyFdKind::ReplyWithoutFDs);
    }
    let mut answer = packet(1, 0, 2, 0, 32);
    answer[2..4].copy_from_slice(&2u16.to_ne_bytes());
    answer[4..8].fill(0);
    connection.enqueue_packet(answer.clone());
    let bytes = savepoint::save(&connection, &reader, &ids).unwrap();
    let (mut other, reader, mut ids) = savepoint::restore(&bytes).unwrap();
    assert_eq!(savepoint::save(&other, &reader, &ids).unwrap(), bytes);
    assert_eq!(other.poll_for_reply(2), PollReply::Reply(answer));
    assert_eq!(other.send_request(ReplyFdKind::NoReply), Some(4));
    assert_eq!(ids.generate_id(), Some(0x20_0000));
    assert_eq!(connection.engine().last_sequence_written(), 3);
}

/// While bytes of a long packet are beside the engine, or beside the reader's buffer, there is no savepoint.
#[test]
fn long_packets() {
    let (mut engine, mut reader) = (
        Engine::new(ByteOrder::Little, 8, 200).unwrap(),
        PacketReader::with_buffer(ByteOrder::Little, 64).unwrap(),
    );
    let ids = IdAllocator::new(0, 0xff).unwrap();
    engine.send_request(ReplyFdKind::NoReply).unwrap();
    let empty = engine.save(&reader, &ids).unwrap();
    let (long, mut out) = (Err(SaveError::LongPacket), [0; 200]);
    let (event, mut reply) = (packet(2, 0, 1, 0, 70_000), vec![1; 100]);
    reply[4..8].copy_from_slice(&17u32.to_le_bytes());

    engine.enqueue_long_packet(event.clone()).unwrap();
    assert_eq!(engine.savepoint_length(&reader, &ids), long);
    assert_eq!(engine.save_into(&reader, &ids, &mut out), long);
    assert!(
        matches!(engine.poll_for_event_with_sequence(), Ok(Some((packet, _))) if packet == event)
    );
    let read = engine.save(&reader, &ids).unwrap();
    assert_ne!(read, empty);

    reader.buffer().copy_from_slice(&reply[..32]);
    assert_eq!(reader.advance(32), None);
    assert_eq!(engine.savepoint_length(&reader, &ids), long);
    assert_eq!(engine.save_into(&reader, &ids, &mut out), long);
    reader.buffer().copy_from_slice(&reply[32..]);
    assert_eq!(reader.advance(68), Some(reply.clone()));
    assert_eq!(engine.save(&reader, &ids), Ok(read));

    // what is restored over them has no such bytes
    engine.enqueue_long_packet(event).unwrap();
    reader.buffer().copy_from_slice(&reply[..32]);
    reader.advance(32);
    let mut other = ids;
    engine
        .restore_into(&empty, &mut reader, &mut other)
        .unwrap();
    assert_eq!(engine.save(&reader, &other), Ok(empty));
    assert_eq!(reader.remaining_capacity(), 32);
}

#[test]
fn a_connection_with_a_long_packet() {
    let (mut connection, reader) = (Connection::new(), PacketReader::new());
    let ids = IdAllocator::new(0, 0xff).unwrap();
    connection.send_requests(&[ReplyFdKind::NoReply; 0x202]);
    connection.enqueue_packet(vec![2; 65_536]);
    assert!(savepoint::save(&connection, &reader, &ids).is_ok());
    connection.enqueue_packet(vec![2; 65_537]);
    let error = savepoint::save(&connection, &reader, &ids).unwrap_err();
    assert_eq!(error, SaveError::LongPacket);
    assert_eq!(
        error.to_string(),
        "Bytes of a long packet are kept beside the engine, and can't be saved"
    );
    assert_eq!(connection.poll_for_events().len(), 2);
    assert!(savepoint::save(&connection, &reader, &ids).is_ok());
}
