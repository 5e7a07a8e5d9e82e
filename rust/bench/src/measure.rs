//! Rows: answers compared, then timed in turns.

use std::time::{Duration, Instant};

use crate::exports;
use crate::sides::{Blind, Client, Log};
use crate::spread::Spread;
use crate::work::{On, Work};

/// For how long a row goes on, and in how many turns at least and at most.
const SPAN: Duration = Duration::from_millis(700);
const LEAST: usize = 5;
const MOST: usize = 301;

/// Our side of a row: its name, its time, and the Rust's time divided by it, turn by turn.
pub struct Ours {
    pub side: &'static str,
    pub time: Spread,
    pub ratio: Spread,
}

/// A row of the table.
pub struct Row {
    pub name: String,
    pub unit: &'static str,
    pub rust: Spread,
    pub ours: Vec<Ours>,
    pub goal: Option<f64>,
}

/// A run of a side: its time.
pub type Side<'a> = Box<dyn FnMut() -> Duration + 'a>;

/// Exits where a side of ours has answered otherwise than the Rust, the first.
pub fn compare(name: &str, logs: &[Log]) {
    for (log, side) in logs.iter().zip([RUST, CRATE, EXPORTS]) {
        if log.0 != logs[0].0 {
            println!("{name}: DIFFERENCE between the Rust and the {side}");
            std::process::exit(1);
        }
    }
}

/// Whether a row is asked for: its name has the part, or is the part with a full stop behind it.
pub fn named(name: &str, part: &str) -> bool {
    match part.strip_suffix('.') {
        Some(whole) => name == whole,
        None => name.contains(part),
    }
}

/// For `bench/instructions`, which counts: the side COUNT_SIDE makes COUNT_RUNS runs, the others none, and
/// nothing is timed.
fn counted(per: f64, sides: &mut [(&'static str, Side)]) -> bool {
    let Ok(wanted) = std::env::var("COUNT_SIDE") else {
        return false;
    };
    let runs = std::env::var("COUNT_RUNS").expect("COUNT_RUNS is set");
    let runs: usize = runs.parse().expect("COUNT_RUNS is a number");
    for (_, run) in sides.iter_mut().filter(|(side, _)| *side == wanted) {
        for _ in 0..runs {
            run();
        }
        println!("{per}");
    }
    true
}

/// Times the sides by turns, the Rust first; per is by what a run is divided, in nanoseconds.
pub fn row(
    name: &str,
    unit: &'static str,
    per: f64,
    goal: Option<f64>,
    mut sides: Vec<(&'static str, Side)>,
) -> Row {
    let mut times = vec![Vec::new(); sides.len()];
    let start = Instant::now();
    if counted(per, &mut sides) {
        std::process::exit(0);
    }
    while times[0].len() < LEAST || (times[0].len() < MOST && start.elapsed() < SPAN) {
        for (times, (_, side)) in times.iter_mut().zip(&mut sides) {
            times.push(side().as_nanos() as f64 / per);
        }
    }
    let ours = (1..sides.len()).map(|i| Ours {
        side: sides[i].0,
        time: Spread::of(times[i].clone()),
        ratio: Spread::of(times[0].iter().zip(&times[i]).map(|(r, o)| r / o).collect()),
    });
    let row = Row {
        name: name.to_string(),
        unit,
        rust: Spread::of(times[0].clone()),
        ours: ours.collect(),
        goal,
    };
    eprintln!("{}", crate::report::line(&row));
    row
}

/// The names of the sides.
pub const RUST: &str = "Rust";
pub const CRATE: &str = "crate";
pub const EXPORTS: &str = "exports";

fn fresh<C: Client>(n: usize) -> Vec<On<C>> {
    (0..n)
        .map(|_| On {
            c: C::fresh(),
            read: 0,
        })
        .collect()
}

/// A row of work on connections.
pub fn work(name: &str, goal: Option<f64>, work: &impl Work) -> Row {
    let n = work.connections();
    let mut rust = fresh::<original::connection::Connection>(n);
    let mut ours = fresh::<xiengmado::connection::Connection>(n);
    let mut exports = fresh::<exports::Connection>(n);
    let mut logs = [Log::default(), Log::default(), Log::default()];
    work.run(&mut rust, &mut logs[0]);
    work.run(&mut ours, &mut logs[1]);
    work.run(&mut exports, &mut logs[2]);
    compare(name, &logs);
    drop(logs);
    row(
        name,
        "ns",
        work.count() as f64,
        goal,
        vec![
            (RUST, Box::new(|| work.run(&mut rust, &mut Blind))),
            (CRATE, Box::new(|| work.run(&mut ours, &mut Blind))),
            (EXPORTS, Box::new(|| work.run(&mut exports, &mut Blind))),
        ],
    )
}
