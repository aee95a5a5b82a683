//! Deserializes Rust types from values.
mod access;
mod key;

use crate::error::Error;
use crate::LEVELS;
use access::{fields, items, Content};
use rhai_world::Value;
use serde::de::value::SeqDeserializer;
use serde::de::{Error as _, Unexpected, Visitor};
use serde::forward_to_deserialize_any;

/// Deserializes from a value, up to a number of levels.
///
/// ```
/// use rhai_world::Value;
/// use rhai_world_serde::Deserializer;
/// use serde::Deserialize;
///
/// assert_eq!(i8::deserialize(Deserializer::new(Value::from(7))), Ok(7));
/// let refused = i8::deserialize(Deserializer::new(Value::from(200)));
/// assert_eq!(refused.unwrap_err().to_string(), "200 is no i8");
/// ```
#[derive(Debug)]
pub struct Deserializer {
    value: Value,
    levels: usize,
}

impl Deserializer {
    /// Deserializes from up to [`LEVELS`] levels.
    pub const fn new(value: Value) -> Deserializer {
        Deserializer::within(value, LEVELS)
    }

    /// Deserializes from up to this many levels. A thread has enough stack for [`LEVELS`] of most
    /// types.
    pub const fn within(value: Value, levels: usize) -> Deserializer {
        Deserializer { value, levels }
    }

    /// Returns the same value for what is inside a newtype.
    fn inside(self) -> Result<Deserializer, Error> {
        let levels = below(self.levels)?;
        Ok(Deserializer { levels, ..self })
    }

    /// Reads a blob as a sequence of its bytes, which types like `Vec<u8>` ask for.
    fn sequence<'de, V: Visitor<'de>>(self, visitor: V) -> Result<V::Value, Error> {
        match self.value {
            Value::Blob(bytes) => {
                below(self.levels)?;
                let mut bytes = SeqDeserializer::new(bytes.into_iter());
                let made = visitor.visit_seq(&mut bytes)?;
                bytes.end()?;
                Ok(made)
            }
            value => visited(value, self.levels, visitor),
        }
    }
}

/// Returns one level less.
fn below(levels: usize) -> Result<usize, Error> {
    levels.checked_sub(1).ok_or(Error::TooDeep)
}

/// Describes a value, for errors about unexpected ones.
fn unexpected(value: &Value) -> Unexpected<'_> {
    match value {
        Value::Unit => Unexpected::Unit,
        Value::Bool(truth) => Unexpected::Bool(*truth),
        Value::Int(n) => Unexpected::Signed(*n),
        Value::Char(character) => Unexpected::Char(*character),
        Value::Text(text) => Unexpected::Str(text),
        Value::Blob(bytes) => Unexpected::Bytes(bytes),
        Value::Array(_) => Unexpected::Seq,
        Value::Map(_) => Unexpected::Map,
        Value::FnPtr(_, _) => Unexpected::Other("function pointer"),
        Value::Range(_, _) | Value::RangeWithEnd(_, _) => Unexpected::Other("range"),
        // (only numbers of the host are left)
        _ => Unexpected::Other("number of the host's"),
    }
}

/// Passes the value to the visitor.
fn visited<'de, V: Visitor<'de>>(value: Value, levels: usize, visitor: V) -> Result<V::Value, Error> {
    match value {
        Value::Unit => visitor.visit_unit(),
        Value::Bool(truth) => visitor.visit_bool(truth),
        Value::Int(n) => visitor.visit_i64(n),
        Value::Char(character) => visitor.visit_char(character),
        Value::Text(text) => visitor.visit_string(text),
        Value::Blob(bytes) => visitor.visit_byte_buf(bytes),
        Value::Array(array) => items(array.into_vec(), below(levels)?, visitor),
        Value::Map(map) => fields(map, below(levels)?, visitor),
        Value::U8(n) => visitor.visit_u8(n),
        Value::U16(n) => visitor.visit_u16(n),
        Value::U32(n) => visitor.visit_u32(n),
        Value::U64(n) => visitor.visit_u64(n),
        Value::U128(n) => visitor.visit_u128(n),
        Value::I8(n) => visitor.visit_i8(n),
        Value::I16(n) => visitor.visit_i16(n),
        Value::I32(n) => visitor.visit_i32(n),
        Value::I128(n) => visitor.visit_i128(n),
        Value::FnPtr(_, _) => Err(Error::NoForm("a function pointer")),
        Value::Range(_, _) | Value::RangeWithEnd(_, _) => Err(Error::NoForm("a range")),
        _ => Err(Error::NoForm("a value of a kind that this crate doesn't know")),
    }
}

/// Converts a value to a number of a type, or fails if it is out of the type's range; `None` if it
/// isn't a number.
fn number<N: TryFrom<i128> + TryFrom<u128>>(value: &Value, wanted: &'static str) -> Option<Result<N, Error>> {
    let small = |n: i128| Some(N::try_from(n).map_err(|_| Error::Number { number: n.to_string(), wanted }));
    match value {
        Value::Int(n) => small((*n).into()),
        Value::U8(n) => small((*n).into()),
        Value::U16(n) => small((*n).into()),
        Value::U32(n) => small((*n).into()),
        Value::U64(n) => small((*n).into()),
        Value::U128(n) => Some(N::try_from(*n).map_err(|_| Error::Number { number: n.to_string(), wanted })),
        Value::I8(n) => small((*n).into()),
        Value::I16(n) => small((*n).into()),
        Value::I32(n) => small((*n).into()),
        Value::I128(n) => small(*n),
        // (no other kind is a number)
        _ => None,
    }
}

macro_rules! numbers {
    ($($method:ident $visit:ident $kind:ident),*) => {
        $(fn $method<V: Visitor<'de>>(self, visitor: V) -> Result<V::Value, Error> {
            match number::<$kind>(&self.value, stringify!($kind)) {
                Some(n) => visitor.$visit(n?),
                None => visited(self.value, self.levels, visitor),
            }
        })*
    };
}

impl<'de> serde::Deserializer<'de> for Deserializer {
    type Error = Error;

    forward_to_deserialize_any! {
        bool char str string bytes byte_buf unit unit_struct map struct identifier
    }

    numbers! {
        deserialize_i8 visit_i8 i8, deserialize_i16 visit_i16 i16, deserialize_i32 visit_i32 i32, deserialize_i64 visit_i64 i64,
        deserialize_i128 visit_i128 i128, deserialize_u8 visit_u8 u8, deserialize_u16 visit_u16 u16,
        deserialize_u32 visit_u32 u32, deserialize_u64 visit_u64 u64, deserialize_u128 visit_u128 u128
    }

    fn deserialize_any<V: Visitor<'de>>(self, visitor: V) -> Result<V::Value, Error> {
        visited(self.value, self.levels, visitor)
    }

    fn deserialize_f32<V: Visitor<'de>>(self, _: V) -> Result<V::Value, Error> {
        Err(Error::Float)
    }

    fn deserialize_f64<V: Visitor<'de>>(self, _: V) -> Result<V::Value, Error> {
        Err(Error::Float)
    }

    fn deserialize_option<V: Visitor<'de>>(self, visitor: V) -> Result<V::Value, Error> {
        if matches!(self.value, Value::Unit) {
            return visitor.visit_none();
        }
        visitor.visit_some(self.inside()?)
    }

    fn deserialize_newtype_struct<V: Visitor<'de>>(self, _: &'static str, visitor: V) -> Result<V::Value, Error> {
        visitor.visit_newtype_struct(self.inside()?)
    }

    fn deserialize_seq<V: Visitor<'de>>(self, visitor: V) -> Result<V::Value, Error> {
        self.sequence(visitor)
    }

    fn deserialize_tuple<V: Visitor<'de>>(self, _: usize, visitor: V) -> Result<V::Value, Error> {
        self.sequence(visitor)
    }

    fn deserialize_tuple_struct<V: Visitor<'de>>(self, _: &'static str, _: usize, visitor: V) -> Result<V::Value, Error> {
        self.sequence(visitor)
    }

    fn deserialize_enum<V: Visitor<'de>>(
        self,
        _: &'static str,
        _: &'static [&'static str],
        visitor: V,
    ) -> Result<V::Value, Error> {
        match self.value {
            Value::Text(variant) => visitor.visit_enum(Content { variant, content: None, levels: self.levels }),
            Value::Map(map) => {
                let mut fields = map.into_iter();
                match (fields.next(), fields.next()) {
                    (Some((variant, content)), None) => {
                        visitor.visit_enum(Content { variant, content: Some(content), levels: below(self.levels)? })
                    }
                    (None, _) | (Some(_), Some(_)) => Err(Error::invalid_value(Unexpected::Map, &"a map of one key")),
                }
            }
            value => Err(Error::invalid_type(unexpected(&value), &"a text or a map of one key")),
        }
    }

    fn deserialize_ignored_any<V: Visitor<'de>>(self, visitor: V) -> Result<V::Value, Error> {
        drop(self.value);
        visitor.visit_unit()
    }
}
