//! Rust integers: conversion to ints of scripts if they fit, and from any integer value that fits.
use super::misfit::TryFromValueError;
use super::Value;
use std::fmt;

/// An integer of any Rust type.
#[derive(Clone, Copy, Debug, PartialEq, Eq, Hash)]
pub(crate) enum Integer {
    Signed(i128),
    Unsigned(u128),
}

impl Integer {
    /// Returns the number of a value, if it is one.
    pub(crate) fn of(value: &Value) -> Option<Integer> {
        Some(match value {
            Value::Int(n) => Integer::Signed(i128::from(*n)),
            Value::U8(n) => Integer::Unsigned(u128::from(*n)),
            Value::U16(n) => Integer::Unsigned(u128::from(*n)),
            Value::U32(n) => Integer::Unsigned(u128::from(*n)),
            Value::U64(n) => Integer::Unsigned(u128::from(*n)),
            Value::U128(n) => Integer::Unsigned(*n),
            Value::I8(n) => Integer::Signed(i128::from(*n)),
            Value::I16(n) => Integer::Signed(i128::from(*n)),
            Value::I32(n) => Integer::Signed(i128::from(*n)),
            Value::I128(n) => Integer::Signed(*n),
            Value::Unit | Value::Bool(_) | Value::Char(_) | Value::Text(_) | Value::Blob(_) => return None,
            Value::Array(_) | Value::Map(_) | Value::FnPtr(_, _) | Value::Range(_, _) | Value::RangeWithEnd(_, _) => return None,
        })
    }

    /// Converts the number to another type, if it fits.
    fn narrow<T: TryFrom<i128> + TryFrom<u128>>(self) -> Option<T> {
        match self {
            Integer::Signed(n) => T::try_from(n).ok(),
            Integer::Unsigned(n) => T::try_from(n).ok(),
        }
    }
}

impl fmt::Display for Integer {
    fn fmt(&self, f: &mut fmt::Formatter<'_>) -> fmt::Result {
        match self {
            Integer::Signed(n) => n.fmt(f),
            Integer::Unsigned(n) => n.fmt(f),
        }
    }
}

/// The error for a number that doesn't fit an int of scripts, which has 64 bits.
///
/// ```
/// use rhai_world::Value;
///
/// assert_eq!(Value::try_from(7_u64), Ok(Value::Int(7)));
/// let error = Value::try_from(u64::MAX).unwrap_err();
/// assert_eq!(error.to_string(), "the number 18446744073709551615 is no int");
/// ```
#[derive(Clone, Copy, Debug, PartialEq, Eq, Hash)]
pub struct NoIntError {
    number: Integer,
}

impl fmt::Display for NoIntError {
    fn fmt(&self, f: &mut fmt::Formatter<'_>) -> fmt::Result {
        write!(f, "the number {} is no int", self.number)
    }
}

impl std::error::Error for NoIntError {}

macro_rules! always {
    ($($kind:ty)*) => {
        $(impl From<$kind> for Value {
            fn from(number: $kind) -> Value {
                Value::Int(i64::from(number))
            }
        })*
    };
}

macro_rules! at_times {
    ($($kind:ty as $wide:ty, $integer:ident;)*) => {
        $(impl TryFrom<$kind> for Value {
            type Error = NoIntError;

            fn try_from(number: $kind) -> Result<Value, NoIntError> {
                match i64::try_from(number) {
                    Ok(int) => Ok(Value::Int(int)),
                    // (the cast widens)
                    Err(_) => Err(NoIntError { number: Integer::$integer(number as $wide) }),
                }
            }
        })*
    };
}

macro_rules! taken {
    ($($kind:ty)*) => {
        $(impl TryFrom<Value> for $kind {
            type Error = TryFromValueError;

            fn try_from(value: Value) -> Result<$kind, TryFromValueError> {
                match Integer::of(&value) {
                    Some(number) => number.narrow().ok_or_else(|| TryFromValueError::of_range(value, stringify!($kind))),
                    None => Err(TryFromValueError::of_type(value, stringify!($kind))),
                }
            }
        })*
    };
}

always! { i8 i16 i32 i64 u8 u16 u32 }

at_times! {
    u64 as u128, Unsigned;
    usize as u128, Unsigned;
    u128 as u128, Unsigned;
    isize as i128, Signed;
    i128 as i128, Signed;
}

taken! { i8 i16 i32 i64 i128 isize u8 u16 u32 u64 u128 usize }
