//! Conversions of values from and to Rust types without values inside.
use super::misfit::TryFromValueError;
use super::{Array, Map, Value};
use std::ops::{Range, RangeInclusive};

macro_rules! made {
    ($($kind:ty: $made:pat => $value:expr;)*) => {
        $(impl From<$kind> for Value {
            fn from($made: $kind) -> Value {
                $value
            }
        })*
    };
}

macro_rules! found {
    ($($kind:ty: $found:pat => $part:expr;)*) => {
        $(impl TryFrom<Value> for $kind {
            type Error = TryFromValueError;

            fn try_from(value: Value) -> Result<$kind, TryFromValueError> {
                if let $found = value {
                    return Ok($part);
                }
                Err(TryFromValueError::of_type(value, stringify!($kind)))
            }
        })*
    };
}

made! {
    (): () => Value::Unit;
    bool: it => Value::Bool(it);
    char: it => Value::Char(it);
    String: it => Value::Text(it);
    &str: it => Value::Text(it.to_owned());
    Array: it => Value::Array(it);
    Map: it => Value::Map(it);
    Range<i64>: it => Value::Range(it.start, it.end);
    RangeInclusive<i64>: it => Value::RangeWithEnd(*it.start(), *it.end());
}

found! {
    (): Value::Unit => ();
    bool: Value::Bool(it) => it;
    char: Value::Char(it) => it;
    String: Value::Text(it) => it;
    Array: Value::Array(it) => it;
    Map: Value::Map(it) => it;
    Range<i64>: Value::Range(start, end) => start..end;
    RangeInclusive<i64>: Value::RangeWithEnd(start, end) => start..=end;
}
