//! Why a script returns no value.
use crate::error::Error;
use crate::render::rendered;
use crate::value::{NoIntError, TryFromValueError, Value};
use std::convert::Infallible;
use std::fmt;

/// The most active functions that an error lists: the innermost ones.
pub(super) const MOST_CALLS: usize = 64;

/// An active function of a script, where a run ended or is paused.
#[derive(Clone, Debug, PartialEq, Eq, Hash)]
#[non_exhaustive]
pub struct CallPlace {
    /// The name: empty for the statements outside functions; the name of a closure begins with `anon$`.
    pub function: String,
    /// The line where the run is or failed, or where this function called the next inner one; 0 if
    /// there is no position.
    pub line: u32,
    /// The column on that line.
    pub column: u32,
}

impl fmt::Display for CallPlace {
    fn fmt(&self, f: &mut fmt::Formatter<'_>) -> fmt::Result {
        match self.function.as_str() {
            "" => f.write_str("in the script")?,
            name if name.starts_with("anon$") => f.write_str("in a closure")?,
            name => write!(f, "in {name}")?,
        }
        if self.line > 0 {
            write!(f, " (line {}, column {})", self.line, self.column)?;
        }
        Ok(())
    }
}

/// Why a script returns no value. Lines and columns count from 1; both are 0 if there is no
/// position.
#[derive(Clone, Debug, PartialEq, Eq, Hash)]
#[non_exhaustive]
pub enum EvalError {
    /// The text is not a valid script.
    Syntax {
        /// What is wrong with it.
        message: String,
        /// The line of the mistake.
        line: u32,
        /// The column of the mistake.
        column: u32,
    },
    /// The script failed while running, and nothing in it caught the error.
    Runtime {
        /// What went wrong; empty if no memory was left for the message.
        message: String,
        /// The line where it went wrong.
        line: u32,
        /// The column where it went wrong.
        column: u32,
        /// The active functions, the innermost first.
        calls: Vec<CallPlace>,
    },
    /// The run used all operations of its limit.
    TooManyOperations {
        /// The line where it was.
        line: u32,
        /// The column where it was.
        column: u32,
        /// The active functions, the innermost first.
        calls: Vec<CallPlace>,
    },
    /// The run used all time of its limit, or wasn't done by the deadline.
    TooMuchTime {
        /// The line where it was.
        line: u32,
        /// The column where it was.
        column: u32,
        /// The active functions, the innermost first.
        calls: Vec<CallPlace>,
    },
    /// The run printed more than its limit.
    TooMuchOutput {
        /// The line where it was.
        line: u32,
        /// The column where it was.
        column: u32,
        /// The active functions, the innermost first.
        calls: Vec<CallPlace>,
    },
    /// Its output couldn't be written to standard output.
    NotPrinted {
        /// The reason.
        why: String,
        /// The line where it was.
        line: u32,
        /// The column where it was.
        column: u32,
        /// The active functions, the innermost first.
        calls: Vec<CallPlace>,
    },
    /// An [`Interrupt`](crate::Interrupt) was pulled.
    Interrupted {
        /// The line where it was.
        line: u32,
        /// The column where it was.
        column: u32,
        /// The active functions, the innermost first.
        calls: Vec<CallPlace>,
    },
    /// The callback of [`Engine::on_progress`](crate::Engine::on_progress) ended the run.
    Terminated {
        /// The reason that the callback gave.
        reason: Value,
        /// The line where it was.
        line: u32,
        /// The column where it was.
        column: u32,
        /// The active functions, the innermost first.
        calls: Vec<CallPlace>,
    },
    /// The value can't be converted to the requested type.
    Mismatch(TryFromValueError),
    /// The value contains itself, by what closures share: it can't be taken out of its scope. As an argument of a host function it is an
    /// error that the script may catch.
    ContainsItself,
    /// A number that the program passed doesn't fit an int.
    NoInt(NoIntError),
    /// The script has no function with this name and number of arguments.
    NoFunction {
        /// The name.
        name: String,
        /// The number of arguments.
        arguments: usize,
    },
    /// The [`Function`](crate::Function) belongs to another scope.
    OtherScope,
    /// An allocation failed.
    OutOfMemory {
        /// The line where the run was.
        line: u32,
        /// The column where the run was.
        column: u32,
        /// The active functions, the innermost first.
        calls: Vec<CallPlace>,
    },
    /// The bytes are no saved scope.
    NotSaved,
    /// The run had already ended; in a host function, by `exit`.
    Ended,
    /// The library's handle has another layout than the one this crate was built for.
    OtherLibrary,
    /// The library returned something that its contract excludes.
    Unexpected,
}

impl EvalError {
    /// Returns the line and the column, if there is a position.
    pub fn position(&self) -> Option<(u32, u32)> {
        match self {
            EvalError::Syntax { line, column, .. }
            | EvalError::Runtime { line, column, .. }
            | EvalError::TooManyOperations { line, column, .. }
            | EvalError::TooMuchTime { line, column, .. }
            | EvalError::TooMuchOutput { line, column, .. }
            | EvalError::NotPrinted { line, column, .. }
            | EvalError::Interrupted { line, column, .. }
            | EvalError::Terminated { line, column, .. }
            | EvalError::OutOfMemory { line, column, .. } => (*line > 0).then_some((*line, *column)),
            EvalError::Mismatch(_)
            | EvalError::ContainsItself
            | EvalError::NoInt(_)
            | EvalError::NoFunction { .. }
            | EvalError::OtherScope
            | EvalError::NotSaved
            | EvalError::Ended
            | EvalError::OtherLibrary
            | EvalError::Unexpected => None,
        }
    }
}

/// The active functions.
impl EvalError {
    /// Returns the functions of the script that were active when the run ended, the innermost first,
    /// at most 64. The list is empty if no run ended, or if an allocation for it failed.
    ///
    /// ```
    /// use rhai_world::Engine;
    ///
    /// let text = "fn inner(x) { x.nowhere() }\nfn outer(x) { inner(x) + 1 }\nouter(1);";
    /// let error = Engine::new().run(text).unwrap_err();
    /// let calls: Vec<String> = error.calls().iter().map(ToString::to_string).collect();
    /// assert_eq!(calls[1..], ["in outer (line 2, column 15)", "in the script (line 3, column 1)"]);
    /// ```
    pub fn calls(&self) -> &[CallPlace] {
        match self {
            EvalError::Runtime { calls, .. }
            | EvalError::TooManyOperations { calls, .. }
            | EvalError::TooMuchTime { calls, .. }
            | EvalError::TooMuchOutput { calls, .. }
            | EvalError::NotPrinted { calls, .. }
            | EvalError::Interrupted { calls, .. }
            | EvalError::Terminated { calls, .. }
            | EvalError::OutOfMemory { calls, .. } => calls,
            EvalError::Syntax { .. }
            | EvalError::Mismatch(_)
            | EvalError::ContainsItself
            | EvalError::NoInt(_)
            | EvalError::NoFunction { .. }
            | EvalError::OtherScope
            | EvalError::NotSaved
            | EvalError::Ended
            | EvalError::OtherLibrary
            | EvalError::Unexpected => &[],
        }
    }

    /// Adds the place where the run is to a failed allocation outside the script's own operations, such as for an argument.
    pub(super) fn note_place(&mut self, at: (u32, u32)) {
        if let EvalError::OutOfMemory { line: line @ 0, column, .. } = self {
            (*line, *column) = at;
        }
    }

    /// Adds the active functions, if the error lists none yet.
    pub(super) fn note_calls(&mut self, under_way: impl FnOnce() -> Vec<CallPlace>) {
        match self {
            EvalError::Runtime { calls, .. }
            | EvalError::TooManyOperations { calls, .. }
            | EvalError::TooMuchTime { calls, .. }
            | EvalError::TooMuchOutput { calls, .. }
            | EvalError::NotPrinted { calls, .. }
            | EvalError::Interrupted { calls, .. }
            | EvalError::Terminated { calls, .. }
            | EvalError::OutOfMemory { calls, .. } => {
                if calls.is_empty() {
                    *calls = under_way();
                }
            }
            EvalError::Syntax { .. }
            | EvalError::Mismatch(_)
            | EvalError::ContainsItself
            | EvalError::NoInt(_)
            | EvalError::NoFunction { .. }
            | EvalError::OtherScope
            | EvalError::NotSaved
            | EvalError::Ended
            | EvalError::OtherLibrary
            | EvalError::Unexpected => {}
        }
    }
}

/// How library results become errors.
impl EvalError {
    /// Returns the line, if there is a position.
    pub fn line(&self) -> Option<u32> {
        self.position().map(|(line, _)| line)
    }

    /// Returns the column, if there is a position.
    pub fn column(&self) -> Option<u32> {
        self.position().map(|(_, column)| column)
    }

    /// Renders the error for the author of the script, whose text is given: the message, the
    /// numbered line, and a caret below the column. Columns count characters, whatever their width.
    /// Without a position, or without such a line, it is only the message.
    /// [`calls`](EvalError::calls) lists the active functions.
    ///
    /// ```
    /// use rhai_world::Engine;
    ///
    /// let text = "let x = 1;\nx + nowhere";
    /// let error = Engine::new().run(text).unwrap_err();
    /// let rendered = "\
    /// variable not found: nowhere (line 2, column 5)
    /// 2 | x + nowhere
    ///   |     ^";
    /// assert_eq!(error.render(text), rendered);
    /// ```
    pub fn render(&self, text: &str) -> String {
        rendered(self, self.position(), text)
    }
}

impl fmt::Display for EvalError {
    fn fmt(&self, f: &mut fmt::Formatter<'_>) -> fmt::Result {
        match self {
            EvalError::Syntax { message, .. } | EvalError::Runtime { message, .. } => f.write_str(message)?,
            EvalError::TooManyOperations { .. } => f.write_str("too many operations")?,
            EvalError::TooMuchTime { .. } => f.write_str("too much time")?,
            EvalError::TooMuchOutput { .. } => f.write_str("too much output")?,
            EvalError::NotPrinted { why, .. } => write!(f, "what was printed can't be written: {why}")?,
            EvalError::Interrupted { .. } => f.write_str("interrupted")?,
            EvalError::Terminated { reason: Value::Text(reason), .. } => write!(f, "terminated: {reason}")?,
            EvalError::Terminated { reason, .. } => write!(f, "terminated: {reason:?}")?,
            EvalError::Mismatch(error) => error.fmt(f)?,
            EvalError::ContainsItself => f.write_str("the value contains itself")?,
            EvalError::NoInt(error) => error.fmt(f)?,
            EvalError::NoFunction { name, arguments } => write!(f, "no function {name} of {arguments} arguments")?,
            EvalError::OtherScope => f.write_str("a function of another scope")?,
            EvalError::OutOfMemory { .. } => f.write_str("out of memory")?,
            EvalError::NotSaved => f.write_str("no saved scope")?,
            EvalError::Ended => f.write_str("the run has ended")?,
            EvalError::OtherLibrary => f.write_str("another library than this crate was built for")?,
            EvalError::Unexpected => f.write_str("an answer that isn't promised")?,
        }
        match self.position() {
            Some((line, column)) => write!(f, " (line {line}, column {column})"),
            None => Ok(()),
        }
    }
}

impl std::error::Error for EvalError {}

impl From<TryFromValueError> for EvalError {
    fn from(error: TryFromValueError) -> EvalError {
        EvalError::Mismatch(error)
    }
}

impl From<NoIntError> for EvalError {
    fn from(error: NoIntError) -> EvalError {
        EvalError::NoInt(error)
    }
}

/// Conversions that can't fail.
impl From<Infallible> for EvalError {
    fn from(never: Infallible) -> EvalError {
        match never {}
    }
}

impl From<Error> for EvalError {
    fn from(error: Error) -> EvalError {
        match error {
            Error::OutOfMemory => EvalError::OutOfMemory { line: 0, column: 0, calls: Vec::new() },
            Error::OtherLibrary => EvalError::OtherLibrary,
            Error::Refused(_) | Error::Closed | Error::NoCommand | Error::NoName | Error::Unexpected => EvalError::Unexpected,
        }
    }
}
