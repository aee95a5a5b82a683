//! Why a value can't be converted to a Rust type.
use super::integers::Integer;
use super::Value;
use std::convert::Infallible;
use std::fmt;

/// What is wrong with a value that can't be converted to a Rust type.
#[derive(Clone, Debug, PartialEq, Eq, Hash)]
#[non_exhaustive]
pub enum Misfit {
    /// It has another type.
    Type,
    /// It is a number out of the type's range.
    Range,
    /// It doesn't have this number of items.
    Length(usize),
    /// A reason that the program gave.
    Other(Box<str>),
}

/// The error for a value that can't be converted to a Rust type. It holds the value, or the part of
/// it that doesn't fit.
#[derive(Clone, Debug, PartialEq, Eq, Hash)]
pub struct TryFromValueError {
    value: Value,
    /// The name of the expected type.
    wanted: &'static str,
    why: Misfit,
    /// Where the part is, as a script would write it; empty for the whole value.
    place: Box<str>,
}

impl TryFromValueError {
    /// Makes an error for a value that can't be converted to a type of the program's own.
    ///
    /// ```
    /// use rhai_world::{Engine, TryFromValueError, Value};
    ///
    /// #[derive(Debug)]
    /// struct Even(i64);
    ///
    /// impl TryFrom<Value> for Even {
    ///     type Error = TryFromValueError;
    ///
    ///     fn try_from(value: Value) -> Result<Even, TryFromValueError> {
    ///         match i64::try_from(value)? {
    ///             n if n % 2 == 0 => Ok(Even(n)),
    ///             n => Err(TryFromValueError::new(Value::from(n), "it is odd")),
    ///         }
    ///     }
    /// }
    ///
    /// let error = Engine::new().eval::<Even>("3 * 5").unwrap_err();
    /// assert_eq!(error.to_string(), "the value doesn't fit: it is odd");
    /// ```
    pub fn new(value: Value, why: impl Into<String>) -> TryFromValueError {
        TryFromValueError::of(value, "another", Misfit::Other(why.into().into()))
    }

    fn of(value: Value, wanted: &'static str, why: Misfit) -> TryFromValueError {
        TryFromValueError { value, wanted, why, place: "".into() }
    }

    pub(crate) fn of_type(value: Value, wanted: &'static str) -> TryFromValueError {
        TryFromValueError::of(value, wanted, Misfit::Type)
    }

    pub(crate) fn of_range(value: Value, wanted: &'static str) -> TryFromValueError {
        TryFromValueError::of(value, wanted, Misfit::Range)
    }

    pub(crate) fn of_length(value: Value, wanted: usize) -> TryFromValueError {
        TryFromValueError::of(value, "an array", Misfit::Length(wanted))
    }

    /// Adds the position of an item to the place.
    pub(crate) fn at_item(mut self, number: usize) -> TryFromValueError {
        self.place = format!("[{number}]{}", self.place).into();
        self
    }

    /// Adds a field to the place.
    pub(crate) fn at_field(mut self, key: &str) -> TryFromValueError {
        self.place = format!("[{key:?}]{}", self.place).into();
        self
    }

    /// Borrows the value.
    pub fn value(&self) -> &Value {
        &self.value
    }

    /// Returns the value itself.
    pub fn into_value(self) -> Value {
        self.value
    }

    /// Returns what is wrong with the value.
    pub fn why(&self) -> &Misfit {
        &self.why
    }

    /// Formats the message, with the words for what failed.
    pub(crate) fn said(&self, of: &str, is: &str) -> String {
        let place = if self.place.is_empty() { String::new() } else { format!(" at {}", self.place) };
        let (kind, wanted) = (self.value.kind_name(), self.wanted);
        match (&self.why, Integer::of(&self.value)) {
            (Misfit::Range, Some(number)) => format!("{of}{place} is {number}, which is no {wanted}"),
            (Misfit::Type | Misfit::Range, _) => format!("{of}{place} is {kind}, and {wanted} {is} wanted"),
            (Misfit::Length(wanted), _) => format!("{of}{place} is {kind} of another length than {wanted}"),
            (Misfit::Other(why), _) => format!("{of}{place} doesn't fit: {why}"),
        }
    }
}

impl fmt::Display for TryFromValueError {
    fn fmt(&self, f: &mut fmt::Formatter<'_>) -> fmt::Result {
        f.write_str(&self.said("the value", "was"))
    }
}

impl std::error::Error for TryFromValueError {}

/// Conversions to `Value` itself can't fail.
impl From<Infallible> for TryFromValueError {
    fn from(never: Infallible) -> TryFromValueError {
        match never {}
    }
}
