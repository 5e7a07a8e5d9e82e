//! A client's socket with the engine behind it: the engine numbers and files, this reads and writes.

use std::io::{self, Read, Write};
use std::os::unix::net::UnixStream;
use std::process::ExitCode;

use xiengmado::connect::Connect;
use xiengmado::connection::{Connection, EventWithClass, PollReply, ReplyFdKind};
use xiengmado::packet_reader::{PacketReader, PacketWithClass};
use xiengmado::protocol::xproto::Setup;
use xiengmado::{ByteOrder, DiscardMode, PacketClass, SequenceNumber};

use crate::wire::{get16, Request};

/// The rooms of the engine: outstanding requests, bytes of held packets, the longest packet and the
/// longest setup.
const REQUESTS: usize = 65_536;
const STORE: usize = 1_048_576;
const PACKET: usize = 65_536;
const SETUP: usize = 262_148;

/// Requests are written once so many bytes are there, or before something is read.
const BATCH: usize = 16_384;

/// Core's opcode of the request that is used as a sync.
const GET_INPUT_FOCUS: u8 = 43;

/// What went over the socket.
#[derive(Debug, Default)]
pub struct Counts {
    pub requests: u64,
    pub syncs: u64,
    pub replies: u64,
    pub events: u64,
    pub errors: u64,
}

pub struct Display {
    stream: UnixStream,
    unwritten: Vec<u8>,
    reader: PacketReader,
    pub connection: Connection,
    pub order: ByteOrder,
    pub counts: Counts,
}

/// The socket of a display such as `:0` or `:0.0`, or of a path as it is.
pub fn socket_path(display: &str) -> String {
    match display.strip_prefix(':') {
        Some(number) => {
            let number = number.split('.').next().unwrap_or(number);
            format!("/tmp/.X11-unix/X{number}")
        }
        None => display.to_string(),
    }
}

/// The display that the environment names.
pub fn display_name() -> io::Result<String> {
    std::env::var("DISPLAY").map_err(|_| io::Error::other("DISPLAY is not set"))
}

/// Connects to a socket; a failure names it.
pub fn open_socket(path: &str) -> io::Result<UnixStream> {
    let named = |error: io::Error| io::Error::new(error.kind(), format!("{path}: {error}"));
    UnixStream::connect(path).map_err(named)
}

fn closed() -> io::Error {
    let text = "the server closed the connection";
    io::Error::new(io::ErrorKind::UnexpectedEof, text)
}

/// Ends a program: a failure is said on the error output, behind the program's name.
pub fn ended(name: &str, result: io::Result<()>) -> ExitCode {
    match result {
        Ok(()) => ExitCode::SUCCESS,
        Err(error) => {
            eprintln!("{name}: {error}");
            ExitCode::FAILURE
        }
    }
}

impl Display {
    /// Connects: the display, its setup, and the setup's bytes. The authorization is a name and data,
    /// both empty for none.
    pub fn open(
        path: &str,
        order: ByteOrder,
        (name, data): (&[u8], &[u8]),
    ) -> io::Result<(Display, Setup, Vec<u8>)> {
        let mut stream = open_socket(path)?;
        let (mut connect, request) =
            Connect::with_buffer(order, name, data, SETUP).map_err(io::Error::other)?;
        stream.write_all(&request)?;
        loop {
            let count = stream.read(connect.buffer())?;
            if count == 0 {
                return Err(closed());
            }
            if connect.advance(count) {
                break;
            }
        }
        let bytes = connect.filled().to_vec();
        let setup = connect.into_setup().map_err(io::Error::other)?;
        let display = Display {
            stream,
            unwritten: Vec::new(),
            reader: PacketReader::with_buffer(order, PACKET).map_err(io::Error::other)?,
            connection: Connection::with_rooms(order, REQUESTS, STORE).map_err(io::Error::other)?,
            order,
            counts: Counts::default(),
        };
        Ok((display, setup, bytes))
    }

    pub fn request(&self, opcode: u8, detail: u8) -> Request {
        Request::new(self.order, opcode, detail)
    }

    /// Sends a request that has a reply; its number.
    pub fn ask(&mut self, bytes: &[u8]) -> io::Result<SequenceNumber> {
        self.make_room()?;
        let number = self.connection.send_request(ReplyFdKind::ReplyWithoutFDs);
        self.sent(number.expect("a request with a reply needs no sync"), bytes)
    }

    /// Sends a request without a reply, after a sync where the engine wants one; its number. An error
    /// stays for `check`.
    pub fn tell(&mut self, bytes: &[u8]) -> io::Result<SequenceNumber> {
        self.make_room()?;
        if let Some(number) = self.connection.send_request(ReplyFdKind::NoReply) {
            return self.sent(number, bytes);
        }
        self.counts.syncs += 1;
        self.sync()?;
        let number = self.connection.send_request(ReplyFdKind::NoReply);
        self.sent(number.expect("the sync was answered"), bytes)
    }

    /// Waits for packets while the engine's room for outstanding requests is full. They will come: a
    /// full room has a request with a reply in it, or the engine would have wanted a sync before.
    fn make_room(&mut self) -> io::Result<()> {
        while self.connection.engine().outstanding_len() == REQUESTS {
            self.read()?;
        }
        Ok(())
    }

    /// The same for a request that nobody will ask about: an error becomes an event.
    pub fn tell_unchecked(&mut self, bytes: &[u8]) -> io::Result<SequenceNumber> {
        let number = self.tell(bytes)?;
        self.connection
            .discard_reply(number, DiscardMode::DiscardReply);
        Ok(number)
    }

    /// The engine's number is what counting gives; the bytes wait for the next write.
    fn sent(&mut self, number: SequenceNumber, bytes: &[u8]) -> io::Result<SequenceNumber> {
        self.counts.requests += 1;
        assert_eq!(number, self.counts.requests, "requests count from one");
        self.unwritten.extend_from_slice(bytes);
        if self.unwritten.len() >= BATCH {
            self.flush()?;
        }
        Ok(number)
    }

    fn flush(&mut self) -> io::Result<()> {
        self.stream.write_all(&self.unwritten)?;
        self.unwritten.clear();
        Ok(())
    }

    /// Reads once, and hands a packet that became whole to the engine.
    fn read(&mut self) -> io::Result<()> {
        self.flush()?;
        let count = self.stream.read(self.reader.buffer())?;
        if count == 0 {
            return Err(closed());
        }
        if let Some(packet) = self.reader.advance(count) {
            match self.connection.enqueue_packet_with_class(packet) {
                PacketClass::Error => self.counts.errors += 1,
                PacketClass::Reply => self.counts.replies += 1,
                _ => self.counts.events += 1,
            }
        }
        Ok(())
    }

    /// Waits for the reply or the error of a request that has a reply.
    pub fn answer(&mut self, number: SequenceNumber) -> io::Result<PacketWithClass> {
        loop {
            let answer = self.connection.poll_for_reply_or_error_with_class(number);
            if let Some((packet, _, class)) = answer {
                let wire = get16(self.order, &packet, 2);
                assert_eq!(wire, number as u16, "the answer is that of its request");
                return Ok((packet, class));
            }
            self.read()?;
        }
    }

    /// Waits for the reply of a request that makes no error.
    pub fn reply(&mut self, number: SequenceNumber) -> io::Result<Vec<u8>> {
        let (packet, class) = self.answer(number)?;
        assert_eq!(class, PacketClass::Reply, "a reply, not an error");
        Ok(packet)
    }

    /// Waits until the server has handled a request without a reply; its error, if it made one.
    pub fn check(&mut self, number: SequenceNumber) -> io::Result<Option<Vec<u8>>> {
        if self.connection.prepare_check_for_reply_or_error(number) {
            self.sync()?;
        }
        loop {
            match self.connection.poll_check_for_reply_or_error(number) {
                PollReply::Reply(error) => return Ok(Some(error)),
                PollReply::NoReply => return Ok(None),
                PollReply::TryAgain => self.read()?,
            }
        }
    }

    /// Waits until the server has handled all requests so far.
    pub fn sync(&mut self) -> io::Result<()> {
        let request = self.request(GET_INPUT_FOCUS, 0).done();
        let number = self.ask(&request)?;
        self.reply(number)?;
        Ok(())
    }

    /// Waits for the next event (or an error that nobody checks), with its number and its class.
    pub fn event(&mut self) -> io::Result<EventWithClass> {
        loop {
            if let Some(event) = self.connection.poll_for_event_with_class() {
                return Ok(event);
            }
            self.read()?;
        }
    }
}
