//! A journal of commands.
use crate::answer::Answer;
use crate::commands::Command;
use crate::error::Error;
use crate::limits::Limits;
use crate::sys::{self, Told};
use crate::world::World;
use std::fmt;

/// The commands that were applied through it, as their lines in `docs/LINES.md`. The library writes
/// the lines, by a proved call: running them returns what the commands returned.
///
/// ```
/// use rhai_world::{Command, Journal, Limits, World};
///
/// let mut world = World::new(Limits::default())?;
/// let mut journal = Journal::new();
/// journal.apply(&mut world, &Command::PutInt { n: 7 })?;
/// journal.line(&mut world, "text seven")?;
/// journal.apply(&mut world, &Command::Show { i: 0 })?;
/// assert_eq!(journal.lines(), "int 7\ntext seven\nshow 0\n");
/// assert_eq!(journal.replayed()?, b"ok\nok\n7\n");
/// # Ok::<(), rhai_world::Error>(())
/// ```
#[derive(Clone, Debug, Default, PartialEq, Eq, Hash)]
pub struct Journal {
    lines: String,
}

impl Journal {
    /// Makes an empty journal.
    pub const fn new() -> Journal {
        Journal { lines: String::new() }
    }

    /// Applies a command as its line, and records it, as `line` does.
    pub fn apply(&mut self, world: &mut World, command: &Command) -> Result<Answer, Error> {
        let line = world.line_of(command)?;
        self.line(world, &line)
    }

    /// Applies the command of a line, and records it if it was done or refused.
    pub fn line(&mut self, world: &mut World, line: &str) -> Result<Answer, Error> {
        let kept = world.journal(line)?;
        self.lines.try_reserve(kept.len())?;
        let answer = world.line(line);
        if matches!(answer, Ok(_) | Err(Error::Refused(_))) {
            self.lines.push_str(&kept);
        }
        answer
    }

    /// Returns the lines, each with a line feed.
    pub fn lines(&self) -> &str {
        &self.lines
    }

    /// Returns what a new world without limits answers to the whole journal, as the program for
    /// lines prints it. A world that began so, and did nothing else, answered the same.
    pub fn replayed(&self) -> Result<Vec<u8>, Error> {
        World::new(Limits::default())?.run_lines(self.lines.as_bytes())
    }
}

impl fmt::Display for Journal {
    fn fmt(&self, f: &mut fmt::Formatter<'_>) -> fmt::Result {
        f.write_str(&self.lines)
    }
}

impl World {
    /// Writes the line of a command, as in `docs/LINES.md`; fails with `Error::NoCommand` if a name
    /// in it is not a word of a line, or a text or character in it contains a line feed.
    pub fn line_of(&self, command: &Command) -> Result<String, Error> {
        let mut line = self.journal(&self.asked(command)?)?;
        line.pop();
        Ok(line)
    }

    /// Returns the journal entry for the command of a line.
    fn journal(&self, line: &str) -> Result<String, Error> {
        if line.contains('\n') {
            return Err(Error::NoCommand);
        }
        let mut told = Told::default();
        let status = sys::journal(&self.handle, line.as_bytes(), &mut told);
        String::from_utf8(self.bytes(status, &told)?).map_err(|_| Error::Unexpected)
    }
}
