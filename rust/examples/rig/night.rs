//! One script: the first run, the savepoints on its way, and the second runs that go on from them.

use std::fs::File;
use std::io::{self, BufRead, BufReader, Lines};
use std::iter::Peekable;
use std::path::{Path, PathBuf};

use crate::chance::Chance;
use crate::opening::Opening;
use crate::program::{is_command, Program};
use crate::progress::{Figures, Progress};

/// So many lines go to the programs at once, at most.
const BATCH: u64 = 500;

/// At most so many differences are told one by one.
const TOLD: u64 = 10;

pub struct Options {
    pub replay: PathBuf,
    pub every: u64,
    pub runs: usize,
    pub seed: u64,
    /// The byte of each savepoint that is changed before it is restored.
    pub harm: Option<usize>,
}

/// A run from a savepoint that was made behind this line.
struct Second {
    program: Program,
    from: u64,
    stays: bool,
}

pub struct Night<'a> {
    options: &'a Options,
    figures: &'a mut Figures,
    progress: &'a mut Progress,
    chance: Chance,
    name: String,
    first: Program,
    seconds: Vec<Second>,
    opening: Opening,
    line: u64,
}

type Script = Peekable<Lines<BufReader<File>>>;

impl<'a> Night<'a> {
    pub fn new(
        options: &'a Options,
        figures: &'a mut Figures,
        progress: &'a mut Progress,
        name: &str,
    ) -> io::Result<Self> {
        Ok(Night {
            options,
            figures,
            progress,
            chance: Chance::new(options.seed, "rig", 0),
            name: name.to_string(),
            first: Program::start(&options.replay)?,
            seconds: Vec::new(),
            opening: Opening::default(),
            line: 0,
        })
    }

    /// The whole script.
    pub fn run(&mut self) -> io::Result<()> {
        let path = Path::new(&self.name).to_path_buf();
        let lines = BufReader::new(File::open(&path)?).lines().count() as u64;
        let mut script = BufReader::new(File::open(&path)?).lines().peekable();
        let mut left = self.gap();
        while script.peek().is_some() {
            let batch = batch(&mut script, left.min(BATCH))?;
            self.step(&batch)?;
            left = left.saturating_sub(batch.len() as u64);
            if left == 0 {
                self.savepoint()?;
                left = self.gap();
            }
            let progress = &mut self.progress;
            progress.show(&self.name, self.line, lines, self.figures);
        }
        self.end()
    }

    /// How many lines to the next savepoint: every so many on average.
    fn gap(&mut self) -> u64 {
        1 + self.chance.below(2 * self.options.every - 1)
    }

    /// Gives lines to all runs; each answer of a second run must be that of the first.
    fn step(&mut self, lines: &[String]) -> io::Result<()> {
        self.first.tell(lines)?;
        for second in &mut self.seconds {
            second.program.tell(lines)?;
        }
        for line in lines {
            self.line += 1;
            self.figures.lines += 1;
            self.opening.take(line);
            if is_command(line) {
                self.compare(line)?;
            }
        }
        Ok(())
    }

    fn compare(&mut self, line: &str) -> io::Result<()> {
        let due = self.first.answer()?;
        match bare(&due) {
            "expect ok" => self.figures.expected += 1,
            "expect differs" => self.differs(&format!("line {}: not as expected", self.line)),
            "bad line" => self.differs(&format!("line {} can't be read", self.line)),
            _ => {}
        }
        let mut same = Vec::new();
        for mut second in std::mem::take(&mut self.seconds) {
            let answer = second.program.answer()?;
            self.figures.answers += 1;
            if bare(&answer) == bare(&due) {
                same.push(second);
            } else {
                self.second_differs(second.from, line, &answer, &due);
            }
        }
        self.seconds = same;
        Ok(())
    }

    /// Saves the first run, and begins a second from there.
    fn savepoint(&mut self) -> io::Result<()> {
        let now = whole(&mut self.first)?;
        if now[1].starts_with("save refused") {
            self.figures.refused += 1;
            return Ok(());
        }
        let used = self.make_room(&now)?;
        let mut program = match used {
            Some(program) if self.figures.savepoints % 2 == 1 => program,
            _ => self.fresh()?,
        };
        self.figures.savepoints += 1;
        let answer = program.ask(self.restore(&now[1]))?;
        if answer != "restore ok" {
            self.second_differs(self.line, "restore", &answer, "restore ok");
            return Ok(());
        }
        // One that was harmed must be found by what it answers later.
        if self.options.harm.is_none() && !self.is_same(self.line, &mut program, &now)? {
            return Ok(());
        }
        let staying = self.seconds.iter().filter(|second| second.stays).count();
        self.seconds.push(Second {
            program,
            from: self.line,
            stays: staying < self.options.runs / 3,
        });
        Ok(())
    }

    /// Where as many runs go on as may: the oldest ends that does not stay. Its program.
    fn make_room(&mut self, now: &[String; 2]) -> io::Result<Option<Program>> {
        if self.seconds.len() < self.options.runs {
            return Ok(None);
        }
        let oldest = self.seconds.iter().position(|second| !second.stays);
        let mut second = self.seconds.remove(oldest.unwrap_or(0));
        let same = self.is_same(second.from, &mut second.program, now)?;
        Ok(same.then_some(second.program))
    }

    fn fresh(&self) -> io::Result<Program> {
        let mut program = Program::start(&self.options.replay)?;
        for line in self.opening.lines() {
            program.ask(line)?;
        }
        Ok(program)
    }

    /// The command that restores what a `save` answered.
    fn restore(&self, saved: &str) -> String {
        let mut line = saved.replacen("save", "restore", 1).into_bytes();
        if let Some(byte) = self.options.harm {
            let digit = &mut line["restore ".len() + 2 * byte + 1];
            *digit = if *digit == b'0' { b'1' } else { b'0' };
        }
        String::from_utf8(line).expect("digits")
    }

    /// Whether the state and the savepoint of a second run are those of the first.
    fn is_same(&mut self, from: u64, program: &mut Program, now: &[String; 2]) -> io::Result<bool> {
        let then = whole(program)?;
        self.figures.answers += 2;
        let other = then.iter().zip(now).find(|(then, now)| then != now);
        if let Some((then, now)) = other {
            self.second_differs(from, "the whole state", then, now);
        }
        Ok(other.is_none())
    }

    /// The end of the script: all second runs stand where the first does.
    fn end(&mut self) -> io::Result<()> {
        let now = whole(&mut self.first)?;
        for mut second in std::mem::take(&mut self.seconds) {
            self.is_same(second.from, &mut second.program, &now)?;
        }
        Ok(())
    }

    fn second_differs(&mut self, from: u64, line: &str, answer: &str, due: &str) {
        let at = self.line;
        self.differs(&format!(
            "line {at}, restored behind line {from}: {}\n  {}\n  {}",
            short(line),
            short(answer),
            short(due)
        ));
    }

    fn differs(&mut self, text: &str) {
        self.figures.differences += 1;
        if self.figures.differences <= TOLD {
            self.progress.clear();
            println!("rig: DIFFERENCE: {}, {text}", self.name);
        }
    }
}

/// So many lines, and those behind them that belong to the last: the answers that it expects, and remarks.
fn batch(script: &mut Script, count: u64) -> io::Result<Vec<String>> {
    let mut lines = Vec::new();
    let belongs = |line: &str| line.starts_with("expect ") || !is_command(line);
    let behind = |line: &io::Result<String>| matches!(line, Ok(line) if belongs(line));
    while (lines.len() as u64) < count || script.peek().is_some_and(behind) {
        match script.next() {
            Some(line) => lines.push(line?),
            None => break,
        }
    }
    Ok(lines)
}

/// The state of a run, as a line and as a savepoint.
fn whole(program: &mut Program) -> io::Result<[String; 2]> {
    Ok([program.ask("state".into())?, program.ask("save".into())?])
}

/// An answer without the number of a line, which is another in each program.
fn bare(answer: &str) -> &str {
    let numbered = ["expect differs", "bad line"];
    let found = numbered.into_iter().find(|text| answer.starts_with(text));
    found.unwrap_or(answer)
}

/// The first characters of a line.
fn short(line: &str) -> &str {
    line.get(..200).unwrap_or(line)
}
