//! Many requests without a reply: what to do where the engine wants a sync, and where its room is full.
//!
//! ```text
//! cargo run --example many -- WAY COUNT       sync or try; to the display $DISPLAY
//! ```
//!
//! `sync` calls `send_request`, and at `None` sends a request with a reply, reads until that came and takes
//! it. So no more than 65,536 requests are ever outstanding, and the call never panics.
//!
//! `try` calls `try_send_request`, also for requests with a reply that it takes later, and reads nothing
//! until it must. At 6 it sends a request with a reply; at 5 it reads, takes packets in and polls. Then it
//! tries again.

#[allow(dead_code)]
#[path = "../shared/display.rs"]
mod display;
#[allow(dead_code)]
#[path = "../shared/wire.rs"]
mod wire;

use std::collections::VecDeque;
use std::io::{self, Read, Write};
use std::os::unix::net::UnixStream;
use std::process::{exit, ExitCode};

use display::{display_name, ended, open_socket, socket_path};
use xiengmado::connect::Connect;
use xiengmado::connection::{Connection, PollReply, ReplyFdKind};
use xiengmado::packet_reader::PacketReader;
use xiengmado::{ByteOrder, Refusal, SequenceNumber};

const ORDER: ByteOrder = ByteOrder::NATIVE;
const GET_INPUT_FOCUS: u8 = 43;
const NO_OPERATION: u8 = 127;

/// Requests are written once so many bytes are there, or before something is read.
const BATCH: usize = 16_384;

struct Client {
    stream: UnixStream,
    unwritten: Vec<u8>,
    reader: PacketReader,
    connection: Connection,
    /// Requests whose reply was not taken yet.
    awaited: VecDeque<SequenceNumber>,
    requests: u64,
    syncs: u64,
    full: u64,
    packets: u64,
    most: usize,
}

/// Connects, without authorization.
fn connect(path: &str) -> io::Result<Client> {
    let mut stream = open_socket(path)?;
    let (mut connect, request) = Connect::with_authorization(Vec::new(), Vec::new());
    stream.write_all(&request)?;
    loop {
        let count = stream.read(connect.buffer())?;
        if count == 0 {
            return Err(io::ErrorKind::UnexpectedEof.into());
        }
        if connect.advance(count) {
            break;
        }
    }
    connect.into_setup().map_err(io::Error::other)?;
    Ok(Client {
        stream,
        unwritten: Vec::new(),
        reader: PacketReader::new(),
        connection: Connection::new(),
        awaited: VecDeque::new(),
        requests: 0,
        syncs: 0,
        full: 0,
        packets: 0,
        most: 0,
    })
}

impl Client {
    /// The engine has numbered a request; its bytes wait for the next write.
    fn write(&mut self, opcode: u8) -> io::Result<()> {
        self.requests += 1;
        self.most = self.most.max(self.connection.engine().outstanding_len());
        self.unwritten
            .extend(wire::Request::new(ORDER, opcode, 0).done());
        if self.unwritten.len() >= BATCH {
            self.flush()?;
        }
        Ok(())
    }

    fn flush(&mut self) -> io::Result<()> {
        self.stream.write_all(&self.unwritten)?;
        self.unwritten.clear();
        Ok(())
    }

    /// Reads until a packet is whole, and takes it in.
    fn read(&mut self) -> io::Result<()> {
        self.flush()?;
        loop {
            let count = self.stream.read(self.reader.buffer())?;
            if count == 0 {
                return Err(io::ErrorKind::UnexpectedEof.into());
            }
            if let Some(packet) = self.reader.advance(count) {
                self.packets += 1;
                self.connection.enqueue_packet(packet);
                return Ok(());
            }
        }
    }

    /// A request without a reply; a sync before it where the engine wants one.
    fn send(&mut self) -> io::Result<()> {
        if self.connection.send_request(ReplyFdKind::NoReply).is_none() {
            self.sync()?;
            let number = self.connection.send_request(ReplyFdKind::NoReply);
            number.expect("the sync was answered");
        }
        self.write(NO_OPERATION)
    }

    /// A request with a reply, read until that came, and taken: all requests before it are done.
    fn sync(&mut self) -> io::Result<()> {
        let number = self.connection.send_request(ReplyFdKind::ReplyWithoutFDs);
        let number = number.expect("a request with a reply needs no sync");
        self.write(GET_INPUT_FOCUS)?;
        self.syncs += 1;
        while self.connection.poll_for_reply(number) == PollReply::TryAgain {
            self.read()?;
        }
        Ok(())
    }

    /// A request of a kind, as soon as the engine takes it.
    fn try_send(&mut self, kind: ReplyFdKind) -> io::Result<()> {
        loop {
            match self.connection.try_send_request(kind) {
                Ok(_) if kind == ReplyFdKind::NoReply => return self.write(NO_OPERATION),
                Ok(number) => {
                    self.awaited.push_back(number);
                    return self.write(GET_INPUT_FOCUS);
                }
                Err(Refusal::SyncFirst) => {
                    self.syncs += 1;
                    self.try_send(ReplyFdKind::ReplyWithoutFDs)?;
                }
                Err(Refusal::NoRoom) => {
                    self.full += 1;
                    self.read()?;
                    self.take_replies();
                }
                Err(refusal) => return Err(io::Error::other(refusal)),
            }
        }
    }

    /// Takes the replies that came.
    fn take_replies(&mut self) {
        while let Some(&number) = self.awaited.front() {
            if self.connection.poll_for_reply(number) == PollReply::TryAgain {
                return;
            }
            self.awaited.pop_front();
        }
    }

    /// The second way: every thousandth request has a reply, but for the first 70,000.
    fn try_all(&mut self, count: u64) -> io::Result<()> {
        for place in 0..count {
            self.try_send(match place > 70_000 && place % 1_000 == 0 {
                true => ReplyFdKind::ReplyWithoutFDs,
                false => ReplyFdKind::NoReply,
            })?;
        }
        while !self.awaited.is_empty() {
            self.read()?;
            self.take_replies();
        }
        Ok(())
    }
}

fn run(way: &str, count: u64) -> io::Result<()> {
    let mut client = connect(&socket_path(&display_name()?))?;
    match way {
        "sync" => (0..count).try_for_each(|_| client.send())?,
        _ => client.try_all(count)?,
    }
    client.sync()?;
    println!(
        "{} requests, {} syncs, {} times no room, at most {} outstanding, {} packets",
        client.requests, client.syncs, client.full, client.most, client.packets
    );
    Ok(())
}

/// The two words: which way, and how many.
fn arguments() -> Option<(String, u64)> {
    let mut words = std::env::args().skip(1);
    let way = words.next().filter(|way| way == "sync" || way == "try")?;
    let count = words.next()?.parse().ok()?;
    words.next().is_none().then_some((way, count))
}

fn main() -> ExitCode {
    let Some((way, count)) = arguments() else {
        eprintln!("usage: many WAY COUNT, the way sync or try, so many requests to $DISPLAY");
        exit(2);
    };
    ended("many", run(&way, count))
}
