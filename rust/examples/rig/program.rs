//! A `replay` that runs: it is given lines, and answers each command by a line.

use std::io::{self, BufRead, BufReader, BufWriter, Write};
use std::path::Path;
use std::process::{Child, ChildStdin, Command, Stdio};
use std::sync::mpsc::{channel, Receiver};
use std::thread;
use std::time::Duration;

/// An answer that does not come within this time never will.
const PATIENCE: Duration = Duration::from_secs(60);

pub struct Program {
    child: Child,
    input: BufWriter<ChildStdin>,
    /// Read by a thread of its own, so that neither side waits for the other to read.
    answers: Receiver<io::Result<String>>,
}

/// Whether a line has an answer.
pub fn is_command(line: &str) -> bool {
    !line.is_empty() && !line.starts_with('#')
}

impl Program {
    pub fn start(path: &Path) -> io::Result<Self> {
        let mut command = Command::new(path);
        command.stdin(Stdio::piped()).stdout(Stdio::piped());
        let mut child = command.spawn().map_err(|error| {
            io::Error::new(error.kind(), format!("{}: {error}", path.display()))
        })?;
        let input = BufWriter::new(child.stdin.take().expect("it is piped"));
        let output = BufReader::new(child.stdout.take().expect("it is piped"));
        let (sender, answers) = channel();
        thread::spawn(move || output.lines().try_for_each(|line| sender.send(line)));
        Ok(Program {
            child,
            input,
            answers,
        })
    }

    pub fn tell(&mut self, lines: &[String]) -> io::Result<()> {
        for line in lines {
            writeln!(self.input, "{line}")?;
        }
        self.input.flush()
    }

    /// The answer to the next command that was told.
    pub fn answer(&mut self) -> io::Result<String> {
        let answer = self.answers.recv_timeout(PATIENCE);
        answer.map_err(|_| io::Error::other("replay does not answer"))?
    }

    pub fn ask(&mut self, line: String) -> io::Result<String> {
        self.tell(&[line])?;
        self.answer()
    }
}

impl Drop for Program {
    fn drop(&mut self) {
        let _ = self.child.kill();
        let _ = self.child.wait();
    }
}
