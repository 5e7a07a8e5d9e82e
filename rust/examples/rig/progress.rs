//! What was done so far: a line that is written over on a terminal, and now and then a new one elsewhere.

use std::fmt;
use std::io::{stderr, IsTerminal};
use std::time::{Duration, Instant};

const ON_A_TERMINAL: Duration = Duration::from_millis(200);
const ELSEWHERE: Duration = Duration::from_secs(60);

#[derive(Default)]
pub struct Figures {
    pub scripts: u64,
    pub lines: u64,
    /// Savepoints that were restored, and places where none could be made.
    pub savepoints: u64,
    pub refused: u64,
    /// Answers of second runs that were compared.
    pub answers: u64,
    /// Answers that the scripts expect.
    pub expected: u64,
    pub differences: u64,
}

impl fmt::Display for Figures {
    fn fmt(&self, f: &mut fmt::Formatter<'_>) -> fmt::Result {
        write!(f, "{} scripts, {} lines, ", self.scripts, self.lines)?;
        write!(f, "{} answers as expected, ", self.expected)?;
        write!(f, "{} savepoints restored, ", self.savepoints)?;
        write!(f, "{} refused, ", self.refused)?;
        write!(f, "{} answers compared, ", self.answers)?;
        write!(f, "{} differences", self.differences)
    }
}

pub struct Progress {
    terminal: bool,
    shown: Instant,
}

impl Progress {
    pub fn new() -> Self {
        Progress {
            terminal: stderr().is_terminal(),
            shown: Instant::now(),
        }
    }

    /// Says how far a script is, if it is time.
    pub fn show(&mut self, name: &str, line: u64, lines: u64, figures: &Figures) {
        let pause = match self.terminal {
            true => ON_A_TERMINAL,
            false => ELSEWHERE,
        };
        if self.shown.elapsed() < pause {
            return;
        }
        self.shown = Instant::now();
        let (saved, differences) = (figures.savepoints, figures.differences);
        let text = format!(
            "rig: {name}: line {line} of {lines}, {saved} savepoints, {differences} differences"
        );
        match self.terminal {
            true => eprint!("\r\x1b[K{text}"),
            false => eprintln!("{text}"),
        }
    }

    /// Clears the line, so that something else can be said.
    pub fn clear(&self) {
        if self.terminal {
            eprint!("\r\x1b[K");
        }
    }
}
