//! Runs of scripts.
use crate::error::Error;
use crate::limits::Limits;
use crate::render::rendered;
use crate::sys::numbers::End;
use crate::sys::ScriptEnd;
use crate::world::World;
use std::fmt;

/// The limit on nested calls of a script.
const CALLS: usize = 500;

/// Runs scripts of a small language, a subset of rhai: see the page of `crates/script_run`.
///
/// ```
/// use rhai_world::{Limits, Script, ScriptError};
///
/// let printed = Script::run("let x = 6; print(x * 7);", 1_000, Limits::default())?;
/// assert_eq!(printed, "42\n");
///
/// let error = Script::run("let x = 1;\nprint(y);", 1_000, Limits::default()).unwrap_err();
/// assert_eq!(error.to_string(), "variable not found: y (line 2, column 7)");
/// # Ok::<(), ScriptError>(())
/// ```
#[derive(Clone, Copy, Debug, Default, PartialEq, Eq, Hash)]
pub struct Script;

impl Script {
    /// How many bytes of stack a run needs, whatever its text, as long as allocations succeed: the
    /// default of a thread.
    pub const STACK: usize = 2 * 1024 * 1024;

    /// Runs a script on values of its own, and returns what it prints. It may use this many
    /// operations, its values and its memory may grow up to the limits, and calls may nest 500
    /// deep.
    pub fn run(text: &str, operations: u64, limits: Limits) -> Result<String, ScriptError> {
        let world = World::new(Limits::default().with_memory(limits.memory))?;
        let (end, printed, message) = world.run_script(text, operations, limits, CALLS)?;
        let ScriptEnd { kind, line, column, .. } = end;
        match End::of(kind) {
            Some(End::Done) => Ok(printed),
            Some(End::Syntax) => Err(ScriptError::Syntax { message, line, column }),
            Some(End::Fault) => Err(ScriptError::Fault { message, line, column, printed }),
            None => Err(ScriptError::Unexpected),
        }
    }
}

/// Why a script ended early. Lines and columns count from 1; both are 0 if there is no position.
#[derive(Clone, Debug, PartialEq, Eq, Hash)]
#[non_exhaustive]
pub enum ScriptError {
    /// The text is not a valid script.
    Syntax {
        /// What is wrong with it.
        message: String,
        /// The line of the mistake.
        line: u32,
        /// The column of the mistake.
        column: u32,
    },
    /// The script failed while running, or reached a limit.
    Fault {
        /// What went wrong.
        message: String,
        /// The line where it went wrong.
        line: u32,
        /// The column where it went wrong.
        column: u32,
        /// What the script printed before.
        printed: String,
    },
    /// An allocation failed before the script ran, or while its result was returned. If one fails
    /// during the run, a `Fault` says so with its position.
    OutOfMemory,
    /// The library's handle has another layout than the one this crate was built for.
    OtherLibrary,
    /// The library returned something that its contract excludes.
    Unexpected,
}

impl ScriptError {
    /// Returns the line and the column, if there is a position.
    pub fn position(&self) -> Option<(u32, u32)> {
        match self {
            ScriptError::Syntax { line, column, .. } | ScriptError::Fault { line, column, .. } if *line > 0 => {
                Some((*line, *column))
            }
            ScriptError::Syntax { .. }
            | ScriptError::Fault { .. }
            | ScriptError::OutOfMemory
            | ScriptError::OtherLibrary
            | ScriptError::Unexpected => None,
        }
    }
}

/// How library results become errors.
impl ScriptError {
    /// Returns the line, if there is a position.
    pub fn line(&self) -> Option<u32> {
        self.position().map(|(line, _)| line)
    }

    /// Returns the column, if there is a position.
    pub fn column(&self) -> Option<u32> {
        self.position().map(|(_, column)| column)
    }

    /// Renders the error for the author of the script, as
    /// [`EvalError::render`](crate::EvalError::render) does.
    pub fn render(&self, text: &str) -> String {
        rendered(self, self.position(), text)
    }
}

impl fmt::Display for ScriptError {
    fn fmt(&self, f: &mut fmt::Formatter<'_>) -> fmt::Result {
        match self {
            ScriptError::Syntax { message, .. } | ScriptError::Fault { message, .. } => f.write_str(message)?,
            ScriptError::OutOfMemory => f.write_str("out of memory")?,
            ScriptError::OtherLibrary => f.write_str("another library than this crate was built for")?,
            ScriptError::Unexpected => f.write_str("an answer that isn't promised")?,
        }
        match self.position() {
            Some((line, column)) => write!(f, " (line {line}, column {column})"),
            None => Ok(()),
        }
    }
}

impl std::error::Error for ScriptError {}

impl From<Error> for ScriptError {
    fn from(error: Error) -> ScriptError {
        match error {
            Error::OutOfMemory => ScriptError::OutOfMemory,
            Error::OtherLibrary => ScriptError::OtherLibrary,
            Error::Refused(_) | Error::Closed | Error::NoCommand | Error::NoName | Error::Unexpected => ScriptError::Unexpected,
        }
    }
}
