//! Saves a client in the midst of a recorded stream and restores it in a second process, which goes on
//! beside it: every later answer and the last savepoint must be the same.
//!
//! ```text
//! cargo run --example soak -- STREAM AT ..       e.g. soak ../tests/streams/xeyes.bin 5 14+100
//! ```
//!
//! AT is a count of packets, `+` a count of bytes of the next. With the environment variable SAVEPOINTS
//! each savepoint is left in that folder.

#[allow(dead_code)]
#[path = "../shared/player.rs"]
mod player;

use std::io::{self, Read, Write};
use std::path::Path;
use std::process::{Child, Command, Stdio};
use std::{env, fs};

use player::{Log, Place, Player};

/// The rooms of the client: all requests that 16 bits tell apart, 1 MiB of packets, the largest packet.
const ROOMS: (usize, usize, usize) = (65_536, 1 << 20, 65_536);

/// A client in a process of its own: where it took over, the bytes of its savepoint, and how many
/// answers there were before.
struct Second {
    at: Place,
    process: Child,
    saved: usize,
    answers: usize,
}

/// A count of packets and one of bytes behind them.
fn place(word: &str) -> io::Result<(u64, usize)> {
    let (packets, bytes) = word.split_once('+').unwrap_or((word, "0"));
    let packets = packets.parse().map_err(io::Error::other)?;
    Ok((packets, bytes.parse().map_err(io::Error::other)?))
}

/// Feeds a client up to a place.
fn feed(
    client: &mut Player,
    stream: &[u8],
    at: &mut Place,
    word: &str,
    log: &mut Log,
) -> io::Result<()> {
    let (packets, more) = place(word)?;
    while at.packets < packets && client.step(stream, at, stream.len(), log) {}
    let end = at.bytes + more;
    while at.bytes < end && client.step(stream, at, end, log) {}
    Ok(())
}

/// The rest of the stream and, as the last line, the savepoint then: its length.
fn finish(client: &mut Player, stream: &[u8], at: &mut Place, log: &mut Log) -> io::Result<usize> {
    client.rest(stream, at, log);
    let bytes = client.save().map_err(io::Error::other)?;
    log.push(format!("{bytes:?}"));
    Ok(bytes.len())
}

fn lines(log: &[String]) -> String {
    log.iter().map(|line| line.clone() + "\n").collect()
}

/// The second process: the rest of the stream in the same pieces, an answer a line.
fn second(name: &str, mut at: Place, places: &[String]) -> io::Result<()> {
    let mut bytes = Vec::new();
    io::stdin().read_to_end(&mut bytes)?;
    let mut client = Player::restore(&bytes).map_err(io::Error::other)?;
    let (stream, mut log) = (fs::read(name)?, Log::new());
    for word in places {
        feed(&mut client, &stream, &mut at, word, &mut log)?;
    }
    finish(&mut client, &stream, &mut at, &mut log)?;
    io::stdout().write_all(lines(&log).as_bytes())
}

/// Starts it with a savepoint on its standard input.
fn start(name: &str, at: Place, places: &[String], bytes: &[u8]) -> io::Result<Child> {
    let mut process = Command::new(env::current_exe()?)
        .args(["second", name])
        .args([at.bytes.to_string(), at.packets.to_string()])
        .args(places)
        .stdin(Stdio::piped())
        .stdout(Stdio::piped())
        .spawn()?;
    let mut input = process.stdin.take().expect("it is piped");
    input.write_all(bytes)?;
    Ok(process)
}

/// Leaves a savepoint in the folder that is asked for.
fn keep(name: &str, at: Place, bytes: &[u8]) -> io::Result<()> {
    let Some(folder) = env::var_os("SAVEPOINTS") else {
        return Ok(());
    };
    let stem = Path::new(name).file_stem().unwrap_or_default();
    let file = format!("{}-{}.savepoint", stem.to_string_lossy(), at.bytes);
    fs::write(Path::new(&folder).join(file), bytes)
}

/// What the second process answered is what the log has from there on.
fn compare(second: Second, name: &str, log: &[String], last: usize) -> io::Result<()> {
    let output = second.process.wait_with_output()?;
    let theirs = String::from_utf8(output.stdout).map_err(io::Error::other)?;
    let ours = lines(&log[second.answers..]);
    let Place { bytes, packets } = second.at;
    if !output.status.success() || theirs != ours {
        let alike = theirs.lines().zip(ours.lines()).take_while(|(a, b)| a == b);
        let answer = alike.count() + 1;
        let text = format!("{name}, packet {packets}: DIFFERENCE at answer {answer}");
        return Err(io::Error::other(text));
    }
    println!(
        "{name}: saved after packet {packets} (byte {bytes}), {} bytes; restored in a second process, \
         {} answers and the last savepoint, {last} bytes, are the same",
        second.saved,
        log.len() - 1 - second.answers,
    );
    Ok(())
}

fn first(name: &str, places: &[String]) -> io::Result<()> {
    let stream = fs::read(name)?;
    let (requests, store, buffer) = ROOMS;
    let mut client = Player::new(requests, store, buffer).map_err(io::Error::other)?;
    let (mut at, mut log, mut seconds) = (Place::default(), Log::new(), Vec::new());
    for (i, word) in places.iter().enumerate() {
        feed(&mut client, &stream, &mut at, word, &mut log)?;
        let bytes = client.save().map_err(io::Error::other)?;
        keep(name, at, &bytes)?;
        seconds.push(Second {
            at,
            process: start(name, at, &places[i + 1..], &bytes)?,
            saved: bytes.len(),
            answers: log.len(),
        });
    }
    let last = finish(&mut client, &stream, &mut at, &mut log)?;
    let short = Path::new(name).file_name().unwrap_or_default();
    for second in seconds {
        compare(second, &short.to_string_lossy(), &log, last)?;
    }
    Ok(())
}

fn main() -> io::Result<()> {
    let words: Vec<String> = env::args().skip(1).collect();
    match words.as_slice() {
        [word, stream, bytes, packets, places @ ..] if word == "second" => {
            let at = Place {
                bytes: bytes.parse().map_err(io::Error::other)?,
                packets: packets.parse().map_err(io::Error::other)?,
            };
            second(stream, at, places)
        }
        [stream, places @ ..] if !places.is_empty() => first(stream, places),
        _ => Err(io::Error::other("usage: soak STREAM AT ..")),
    }
}
