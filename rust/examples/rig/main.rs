//! Scripts of live sessions (`tap --script`), replayed with savepoints on the way.
//!
//! ```text
//! cargo run --release --example rig -- [--every N] [--runs R] [--seed S] [--replay PROGRAM] SCRIPT ..
//! ```
//!
//! A `replay` is given the script through a pipe and must answer as the script expects. At places that chance
//! picks, one in N lines, it is asked to `save`. A second `replay` restores that and is given the rest of the
//! lines too: each answer must be the first one's, and so must its `state` and its savepoint be, when it was
//! restored and when it ends. A savepoint that is refused (18 while descriptors are inside) is counted.
//!
//! At most R second runs go on at a time. A third of them, the first, stay to the end of the script; when
//! a further one begins, the oldest of the others ends. So the work grows with the lines and not with their square.
//! Every other run begins in the program of one that ended, whose rooms are full of something else.
//!
//! The last line has the figures. It ends with 1 on a difference.

#[allow(dead_code)]
#[path = "../../beside/src/chance.rs"]
mod chance;
mod night;
mod opening;
mod program;
mod progress;

use std::io;
use std::process::exit;

use night::{Night, Options};
use progress::{Figures, Progress};

const USAGE: &str = "usage: rig [--every N] [--runs R] [--seed S] [--replay PROGRAM] SCRIPT ..";
const REPLAY: &str = concat!(env!("CARGO_MANIFEST_DIR"), "/../target/bin/replay");

/// The options, and the scripts behind them.
fn options(words: &[String]) -> Option<(Options, &[String])> {
    let mut options = Options {
        replay: REPLAY.into(),
        every: 20,
        runs: 6,
        seed: 1,
        harm: None,
    };
    let mut rest = words;
    while let [name, value, more @ ..] = rest {
        match name.as_str() {
            "--replay" => options.replay = value.into(),
            "--every" => options.every = value.parse().ok().filter(|&n| n > 0)?,
            "--runs" => options.runs = value.parse().ok().filter(|&n| n > 0)?,
            "--seed" => options.seed = value.parse().ok()?,
            "--harm" => options.harm = Some(value.parse().ok().filter(|&byte| byte < 116)?),
            _ => break,
        }
        rest = more;
    }
    let named = rest.iter().all(|word| !word.starts_with("--"));
    (named && !rest.is_empty()).then_some((options, rest))
}

fn run(options: &Options, scripts: &[String]) -> io::Result<Figures> {
    let (mut figures, mut progress) = (Figures::default(), Progress::new());
    for name in scripts {
        let named = |error: io::Error| io::Error::new(error.kind(), format!("{name}: {error}"));
        let night = Night::new(options, &mut figures, &mut progress, name);
        night.and_then(|mut night| night.run()).map_err(named)?;
        figures.scripts += 1;
    }
    progress.clear();
    Ok(figures)
}

fn main() {
    let words: Vec<String> = std::env::args().skip(1).collect();
    let Some((options, scripts)) = options(&words) else {
        eprintln!("{USAGE}");
        exit(2);
    };
    match run(&options, scripts) {
        Ok(figures) => {
            println!("rig: {figures}");
            exit(i32::from(figures.differences > 0));
        }
        Err(error) => {
            eprintln!("rig: {error}");
            exit(1);
        }
    }
}
