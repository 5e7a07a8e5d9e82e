//! Stands between X clients and their server, passes every byte and every descriptor on unchanged, and checks on
//! the live traffic that the engine files each packet under its true number.
//!
//! ```text
//! cargo run --release --example tap -- [--script FILE] COMMAND [ARGUMENT ..]
//! ```
//!
//! The server is that of `$DISPLAY`. The tap opens a display of its own, the first free number from 100 on, and
//! runs the command with `DISPLAY` set to it. When the command has ended it says what went through each
//! connection. It ends with 1 if a number differed, otherwise as the command did.
//!
//! - `requests.rs` cuts the client's bytes into requests;
//! - `reckoning.rs` says which number a packet truly has, without the engine;
//! - `extensions.rs` says which requests of extensions have a reply with descriptors;
//! - `check.rs` tells the engine the same traffic and compares;
//! - `pass.rs` reads and writes bytes with their descriptors;
//! - `script.rs` writes the session as a script of `replay` to FILE; of a command that opens several
//!   connections each has its own: FILE, FILE.2, FILE.3, in the order in which they were opened.
//!
//! A client of a server that wants a cookie looks for it under the new display's number; copy it there with
//! `xauth`. Descriptors go on with the first of the bytes that they were read with: so none comes later than it
//! would without the tap.

mod check;
#[allow(dead_code)]
#[path = "../shared/display.rs"]
mod display;
mod extensions;
#[allow(dead_code)]
#[path = "../../tests/ours/mod.rs"]
mod ours;
mod pass;
mod reckoning;
#[allow(dead_code)]
#[path = "../../tests/replay/mod.rs"]
mod replay;
mod requests;
mod script;
#[allow(dead_code)]
#[path = "../shared/wire.rs"]
mod wire;

use std::io;
use std::net::Shutdown;
use std::os::fd::OwnedFd;
use std::os::unix::net::{UnixListener, UnixStream};
use std::path::{Path, PathBuf};
use std::process::{exit, Command};
use std::sync::mpsc::{channel, Receiver, Sender};
use std::sync::{Arc, Condvar, Mutex, MutexGuard};
use std::thread::{self, JoinHandle};

use check::{Check, Counts};
use display::{display_name, open_socket, socket_path};
use script::Script;

const CHUNK: usize = 65_536;
const FIRST_DISPLAY: u32 = 100;

/// A connection's check, whether it is over, and the sign that one of the two changed.
#[derive(Default)]
struct Shared {
    state: Mutex<(Check, bool)>,
    changed: Condvar,
}

impl Shared {
    fn lock(&self) -> MutexGuard<'_, (Check, bool)> {
        self.state.lock().expect("no thread stopped midway")
    }

    /// How many bytes of the client may be passed on now; waits for room. None once it is over.
    fn client(&self, bytes: &[u8]) -> Option<usize> {
        let mut state = self.lock();
        while !state.1 {
            match state.0.client(bytes) {
                Ok(0) => {}
                Ok(count) => return Some(count),
                Err(refusal) => {
                    state.0.refused(refusal);
                    return None;
                }
            }
            state = self.changed.wait(state).expect("no thread stopped midway");
        }
        None
    }

    /// Whether the server's bytes, with which so many descriptors came, may be passed on.
    fn server(&self, bytes: &[u8], fds: usize) -> bool {
        let mut state = self.lock();
        let taken = state.0.fds(fds).and_then(|()| state.0.server(bytes));
        if let Err(refusal) = taken {
            state.0.refused(refusal);
        }
        self.changed.notify_all();
        taken.is_ok()
    }

    fn end(&self) {
        self.lock().1 = true;
        self.changed.notify_all();
    }
}

/// Passes the client's bytes on, each request after it was counted.
fn pass_requests(from: &UnixStream, to: &UnixStream, shared: &Shared) -> io::Result<()> {
    let mut chunk = vec![0; CHUNK];
    loop {
        let (count, mut fds) = pass::read(from, &mut chunk)?;
        if count == 0 {
            return Ok(());
        }
        let mut rest = &chunk[..count];
        while !rest.is_empty() {
            let taken = shared.client(rest).ok_or(io::ErrorKind::Other)?;
            pass::write(to, &rest[..taken], &std::mem::take(&mut fds))?;
            rest = &rest[taken..];
        }
    }
}

/// Bytes, and the descriptors that came with them.
type Piece = (Vec<u8>, Vec<OwnedFd>);

/// Passes the server's bytes on, each packet after it was compared. A client that is gone ends nothing:
/// what the server still sends is compared too.
fn pass_packets(from: &UnixStream, to: Sender<Piece>, shared: &Shared) -> io::Result<()> {
    let mut chunk = vec![0; CHUNK];
    loop {
        let (count, fds) = pass::read(from, &mut chunk)?;
        if count == 0 || !shared.server(&chunk[..count], fds.len()) {
            return Ok(());
        }
        let _ = to.send((chunk[..count].to_vec(), fds));
    }
}

/// Hands the client its bytes. They queue up while it does not read, as they would in the server, so that
/// packets go on making room.
fn hand_out(from: Receiver<Piece>, to: &UnixStream) -> io::Result<()> {
    for (bytes, fds) in from {
        pass::write(to, &bytes, &fds)?;
    }
    Ok(())
}

/// What is said of a connection: its counts, and what was written to its script.
type Said = (Counts, Option<String>);

/// Serves one client until both sides are done. Streams that break off are no failure of the engine.
fn serve(client: &UnixStream, server: &UnixStream, script: Option<Script>) -> io::Result<Said> {
    let shared = Shared::default();
    shared.lock().0.script = script;
    let (sender, receiver) = channel();
    thread::scope(|scope| {
        scope.spawn(|| {
            let _ = pass_requests(client, server, &shared);
            let _ = server.shutdown(Shutdown::Write);
        });
        scope.spawn(|| {
            let _ = hand_out(receiver, client);
            let _ = client.shutdown(Shutdown::Both);
        });
        let _ = pass_packets(server, sender, &shared);
        let _ = server.shutdown(Shutdown::Both);
        shared.end();
    });
    let check = &mut shared.lock().0;
    let written = check.script.take().map(Script::finish).transpose()?;
    Ok((check.counts(), written))
}

type Served = Arc<Mutex<Vec<JoinHandle<io::Result<Said>>>>>;

/// Lets clients in, as long as the tap runs.
fn accept(door: UnixListener, server: String, file: Option<PathBuf>, served: Served) {
    for (before, client) in door.incoming().enumerate() {
        let path = server.clone();
        let file = file.as_deref().map(|file| numbered(file, before + 1));
        let mut threads = served.lock().expect("no thread stopped midway");
        threads.push(thread::spawn(move || {
            let script = file.as_deref().map(Script::create).transpose()?;
            serve(&client?, &open_socket(&path)?, script)
        }));
    }
}

/// The file of the connection with this number: the first has the name as it was given.
fn numbered(file: &Path, number: usize) -> PathBuf {
    let mut name = file.as_os_str().to_owned();
    if number > 1 {
        name.push(format!(".{number}"));
    }
    name.into()
}

/// A display of its own: its number and its socket.
fn open_door() -> io::Result<(u32, String, UnixListener)> {
    for number in FIRST_DISPLAY..FIRST_DISPLAY + 1_000 {
        let path = socket_path(&format!(":{number}"));
        let locked = Path::new(&format!("/tmp/.X{number}-lock")).exists();
        if locked || Path::new(&path).exists() {
            continue;
        }
        if let Ok(door) = UnixListener::bind(&path) {
            return Ok((number, path, door));
        }
    }
    Err(io::Error::other("no display number is free"))
}

/// Runs the command with the tap's display; whether a number differed, and how the command ended.
fn run(file: Option<PathBuf>, words: &[String]) -> io::Result<(bool, i32)> {
    let server = socket_path(&display_name()?);
    let (number, path, door) = open_door()?;
    let served = Served::default();
    let threads = served.clone();
    thread::spawn(move || accept(door, server, file, threads));
    let mut command = Command::new(&words[0]);
    let status = command
        .args(&words[1..])
        .env("DISPLAY", format!(":{number}"))
        .status();
    std::fs::remove_file(path)?;
    let mut differs = false;
    let threads = std::mem::take(&mut *served.lock().expect("no thread stopped midway"));
    for thread in threads {
        let (counts, written) = thread.join().expect("no thread stopped midway")?;
        differs |= counts.differences > 0;
        println!("tap: {counts}");
        if let Some(text) = written {
            println!("script: {text}");
        }
    }
    Ok((differs, status?.code().unwrap_or(1)))
}

fn main() {
    let mut words: Vec<String> = std::env::args().skip(1).collect();
    let mut file = None;
    if words.len() > 1 && words[0] == "--script" {
        file = Some(words.remove(1).into());
        words.remove(0);
    }
    if words.is_empty() || words[0].starts_with("--") {
        eprintln!("usage: tap [--script FILE] COMMAND [ARGUMENT ..]");
        exit(2);
    }
    match run(file, &words) {
        Ok((true, _)) => exit(1),
        Ok((false, status)) => exit(status),
        Err(error) => {
            eprintln!("tap: {error}");
            exit(1);
        }
    }
}
