//! Why a conversion fails.
use serde::{de, ser};
use std::fmt;

/// Why a conversion fails.
#[derive(Clone, Debug, PartialEq, Eq, Hash)]
#[non_exhaustive]
pub enum Error {
    /// Values have no floats.
    Float,
    /// The number is out of the type's range.
    Number {
        /// Its digits.
        number: String,
        /// The type.
        wanted: &'static str,
    },
    /// The key is not a text, and can't be written as one.
    Key,
    /// The key occurs twice.
    Twice(String),
    /// The key isn't written as a value of this type.
    KeyForm {
        /// The key.
        key: String,
        /// The type.
        wanted: &'static str,
    },
    /// It is nested too deep.
    TooDeep,
    /// Such a value only has a meaning in its script.
    NoForm(&'static str),
    /// A message from a type, or from serde on its behalf.
    Message(String),
}

impl fmt::Display for Error {
    fn fmt(&self, f: &mut fmt::Formatter<'_>) -> fmt::Result {
        match self {
            Error::Float => f.write_str("values have no floats"),
            Error::Number { number, wanted } => write!(f, "{number} is no {wanted}"),
            Error::Key => f.write_str("a key that is no text"),
            Error::Twice(key) => write!(f, "the key {key:?} twice"),
            Error::KeyForm { key, wanted } => write!(f, "the key {key:?} is no {wanted}"),
            Error::TooDeep => f.write_str("nested too deep"),
            Error::NoForm(kind) => write!(f, "{kind} has no form outside of scripts"),
            Error::Message(message) => f.write_str(message),
        }
    }
}

impl std::error::Error for Error {}

impl ser::Error for Error {
    fn custom<T: fmt::Display>(message: T) -> Error {
        Error::Message(message.to_string())
    }
}

impl de::Error for Error {
    fn custom<T: fmt::Display>(message: T) -> Error {
        Error::Message(message.to_string())
    }
}
