//! The engine beside the published Rust: both are driven call by call by a seeded generator, and every
//! answer and the whole state after every call are compared.
//!
//! The published files are built as they are, from the folder that the environment variable
//! XIENGMADO_RUST names (its `src`); none of them is part of this project. Where there is no such
//! folder, this program says so and does nothing.
//!
//! ```text
//! beside [SEED [RUNS]]       seeded runs of every kind
//! beside long                more than 2^32 requests in one run
//! beside answer SCRIPT       what the Rust answers to a script of the recorded runs' language
//! beside record FOLDER       writes the recorded runs and their answers
//! ```

#[cfg(published)]
extern crate alloc;

#[cfg(published)]
mod names;
#[cfg(published)]
mod standins;
#[cfg(published)]
pub use standins::*;

#[cfg(published)]
mod chance;
#[cfg(published)]
mod client;
#[cfg(published)]
mod leaves;
#[cfg(published)]
mod oracle;
#[cfg(published)]
mod record;
#[cfg(published)]
#[path = "../../tests/replay/mod.rs"]
mod replay;
#[cfg(published)]
mod script;
#[cfg(published)]
mod sessions;

#[cfg(published)]
fn main() {
    let words: Vec<String> = std::env::args().skip(1).collect();
    std::panic::set_hook(Box::new(|_| {}));
    match words.iter().map(String::as_str).collect::<Vec<_>>()[..] {
        ["long"] => return sessions::long(),
        ["answer", script] => return record::answer(script),
        ["record", folder] => return record::record(folder),
        _ => {}
    }
    let number = |i: usize, other| words.get(i).and_then(|w| w.parse().ok()).unwrap_or(other);
    let (seed, runs) = (number(0, 1), number(1, 200));
    let mut calls = 0;
    for (name, kind) in sessions::KINDS {
        let count: u64 = (0..runs)
            .map(|run| {
                run_whole(name, seed, run, || {
                    kind(&mut chance::Chance::new(seed, name, run))
                })
            })
            .sum();
        println!("{name}: {runs} runs, {count} calls compared, no difference");
        calls += count;
    }
    println!("{}", client::report());
    println!("{}", client::report_long());
    println!("{}", client::report_keymaps());
    println!("{}", client::report_ahead());
    println!("{}", client::report_classes());
    println!("beside: {calls} calls compared, no difference");
}

/// A run; at a difference its name, so that it can be made again.
#[cfg(published)]
fn run_whole(name: &str, seed: u64, run: u64, go: impl FnOnce() -> u64) -> u64 {
    match std::panic::catch_unwind(std::panic::AssertUnwindSafe(go)) {
        Ok(calls) => calls,
        Err(cause) => {
            let text = cause
                .downcast_ref::<String>()
                .cloned()
                .or_else(|| cause.downcast_ref::<&str>().map(|s| s.to_string()))
                .unwrap_or_default();
            println!("{name}: DIFFERENCE in run {run} of seed {seed}\n{text}");
            std::process::exit(1);
        }
    }
}

#[cfg(not(published))]
fn main() {
    println!("beside: skipped, XIENGMADO_RUST does not name the folder of the published Rust");
}
