//! Why a call failed.
use crate::answer::Refusal;
use crate::sys::numbers::Status;
use std::fmt;

/// Why a call failed. The world is unchanged.
#[derive(Clone, Debug, PartialEq, Eq, Hash)]
#[non_exhaustive]
pub enum Error {
    /// The command was refused.
    Refused(Refusal),
    /// An allocation failed.
    OutOfMemory,
    /// No world is open.
    Closed,
    /// The input is not a command: a line that says none, or a text that is not valid.
    NoCommand,
    /// The name belongs to another world, or was forgotten.
    NoName,
    /// The library's handle has another layout than the one this crate was built for.
    OtherLibrary,
    /// The library returned something that its contract excludes.
    Unexpected,
}

impl fmt::Display for Error {
    fn fmt(&self, f: &mut fmt::Formatter<'_>) -> fmt::Result {
        match self {
            Error::Refused(why) => write!(f, "refused: {why}"),
            Error::OutOfMemory => f.write_str("out of memory"),
            Error::Closed => f.write_str("no world is open"),
            Error::NoCommand => f.write_str("no command"),
            Error::NoName => f.write_str("no name of this world"),
            Error::OtherLibrary => f.write_str("another library than this crate was built for"),
            Error::Unexpected => f.write_str("an answer that isn't promised"),
        }
    }
}

impl std::error::Error for Error {
    fn source(&self) -> Option<&(dyn std::error::Error + 'static)> {
        match self {
            Error::Refused(why) => Some(why),
            Error::OutOfMemory | Error::Closed | Error::NoCommand | Error::NoName | Error::OtherLibrary | Error::Unexpected => {
                None
            }
        }
    }
}

impl From<std::collections::TryReserveError> for Error {
    fn from(_: std::collections::TryReserveError) -> Error {
        Error::OutOfMemory
    }
}

/// Maps a status to done, or to its error.
#[inline]
pub(crate) fn done(status: u32) -> Result<(), Error> {
    if status == Status::Done as u32 {
        return Ok(());
    }
    Err(failed(status))
}

#[cold]
fn failed(status: u32) -> Error {
    match Status::of(status) {
        Some(Status::OutOfMemory | Status::NoRoom) => Error::OutOfMemory,
        Some(Status::Closed) => Error::Closed,
        Some(Status::NoCommand) => Error::NoCommand,
        Some(Status::Done) | None => Error::Unexpected,
    }
}
