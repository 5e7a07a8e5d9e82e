//! The program `packets` beside one that does the same with the published Rust: a stream through a
//! pipe, and what they write compared.

use std::io::Write;
use std::path::{Path, PathBuf};
use std::process::{Command, Stdio};
use std::time::{Duration, Instant};

use crate::measure::{self, Row, RUST};
use crate::work;

/// How many bytes go through the pipe.
const STREAM: usize = 100_000_000;

/// A run of a program: how long it took from start to end, and what it wrote if that is asked for.
fn run(program: &Path, stream: &[u8], wanted: bool) -> (Duration, Vec<u8>) {
    let start = Instant::now();
    let mut child = Command::new(program)
        .stdin(Stdio::piped())
        .stdout(if wanted {
            Stdio::piped()
        } else {
            Stdio::null()
        })
        .spawn()
        .unwrap_or_else(|error| panic!("{}: {error}", program.display()));
    let mut input = child.stdin.take().expect("it has a pipe");
    let output = std::thread::scope(|scope| {
        scope.spawn(move || input.write_all(stream).expect("it reads all"));
        child.wait_with_output().expect("it ends")
    });
    (start.elapsed(), output.stdout)
}

fn row(name: &str, proved: &Path, stream: &[u8]) -> Row {
    let rust = std::env::current_exe()
        .expect("this program has a file")
        .with_file_name("rust-packets");
    let (theirs, ours) = (run(&rust, stream, true).1, run(proved, stream, true).1);
    if theirs != ours {
        println!("{name}: DIFFERENCE between the programs");
        std::process::exit(1);
    }
    measure::row(
        name,
        "ms",
        1e6,
        Some(1.0),
        vec![
            (RUST, Box::new(|| run(&rust, stream, false).0)),
            ("program", Box::new(|| run(proved, stream, false).0)),
        ],
    )
}

/// What goes through the pipe.
type Stream = fn() -> Vec<u8>;

/// The two rows, if the proved program is there.
pub fn rows(part: &str) -> Vec<Row> {
    let proved = PathBuf::from(concat!(
        env!("CARGO_MANIFEST_DIR"),
        "/../../target/bin/packets"
    ));
    let kinds: [(&str, Stream); 2] = [
        ("packets, 100 MB of events", || {
            work::packet(2, 1).repeat(STREAM / 32)
        }),
        ("packets, 100 MB of mixed packets", || {
            work::mixed_stream(STREAM)
        }),
    ];
    kinds
        .into_iter()
        .filter(|(name, _)| name.contains(part))
        .map(|(name, stream)| row(name, &proved, &stream()))
        .collect()
}
