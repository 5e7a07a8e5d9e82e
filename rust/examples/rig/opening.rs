//! The handshake of a script, and whether it shows classes. Neither is in a savepoint, so a fresh program is given
//! these commands before it restores: then its `state` and its answers can be those of the first run.

#[derive(Default)]
pub struct Opening {
    /// The last `new`, which has the byte order.
    new: Option<String>,
    lines: Vec<String>,
}

impl Opening {
    /// The next line of the script.
    pub fn take(&mut self, line: &str) {
        match line.split(' ').next() {
            Some("new") => self.new = Some(line.into()),
            Some("hello") => {
                self.lines = self.new.iter().cloned().collect();
                self.lines.push(line.into());
            }
            Some("hfill" | "hadvance" | "classes") => self.lines.push(line.into()),
            _ => {}
        }
    }

    pub fn lines(&self) -> impl Iterator<Item = String> + '_ {
        self.lines.iter().cloned()
    }
}
