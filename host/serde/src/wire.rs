//! Values for other formats, and from them.
//!
//! The functions are for the fields of structs:
//!
//! ```
//! use rhai_world::Value;
//! use serde::{Deserialize, Serialize};
//!
//! #[derive(Serialize, Deserialize)]
//! struct Stored {
//!     name: String,
//!     #[serde(with = "rhai_world_serde::wire")]
//!     value: Value,
//! }
//!
//! let stored = Stored { name: "x".to_owned(), value: Value::from(7) };
//! assert_eq!(serde_json::to_string(&stored)?, r#"{"name":"x","value":7}"#);
//! # Ok::<(), serde_json::Error>(())
//! ```
use crate::error::Error;
use crate::LEVELS;
use rhai_world::{Array, Map, Value};
use serde::de::{self, DeserializeSeed, Error as _, MapAccess, SeqAccess, Visitor};
use serde::ser::{Error as _, SerializeMap, SerializeSeq};
use serde::{Deserialize, Deserializer, Serialize, Serializer};
use std::collections::btree_map::Entry;
use std::collections::BTreeMap;
use std::fmt;

/// A value that can be written in other formats, such as JSON, and read from them.
///
/// ```
/// use rhai_world_serde::Wire;
///
/// let Wire(value) = serde_json::from_str(r#"{"a": [1, null, "x"]}"#)?;
/// assert_eq!(format!("{value:?}"), r#"{"a": [Int(1), Unit, Text("x")]}"#);
/// assert_eq!(serde_json::to_string(&Wire(value))?, r#"{"a":[1,null,"x"]}"#);
///
/// let refused = serde_json::from_str::<Wire>("[1.5]").unwrap_err();
/// assert_eq!(refused.to_string(), "values have no floats at line 1 column 4");
/// # Ok::<(), serde_json::Error>(())
/// ```
#[derive(Clone, Debug, PartialEq, Eq, Hash)]
pub struct Wire(pub Value);

impl From<Value> for Wire {
    fn from(value: Value) -> Wire {
        Wire(value)
    }
}

impl From<Wire> for Value {
    fn from(wire: Wire) -> Value {
        wire.0
    }
}

impl Serialize for Wire {
    fn serialize<S: Serializer>(&self, serializer: S) -> Result<S::Ok, S::Error> {
        serialize(&self.0, serializer)
    }
}

impl<'de> Deserialize<'de> for Wire {
    fn deserialize<D: Deserializer<'de>>(deserializer: D) -> Result<Wire, D::Error> {
        deserialize(deserializer).map(Wire)
    }
}

/// Serializes the value to a format.
///
/// Errors: a function pointer or a range in it, more than [`LEVELS`] levels, and the format's own
/// errors.
pub fn serialize<S: Serializer>(value: &Value, serializer: S) -> Result<S::Ok, S::Error> {
    Told { value, levels: LEVELS }.serialize(serializer)
}

/// Deserializes a value from a format. A number becomes an int.
///
/// Errors: a float, a number that doesn't fit an `i64`, a duplicate key, more than [`LEVELS`]
/// levels, and the format's own errors.
pub fn deserialize<'de, D: Deserializer<'de>>(deserializer: D) -> Result<Value, D::Error> {
    Wanted { levels: LEVELS }.deserialize(deserializer)
}

/// A value to serialize, up to a number of levels.
struct Told<'a> {
    value: &'a Value,
    levels: usize,
}

impl Told<'_> {
    fn below<E: serde::ser::Error>(&self) -> Result<usize, E> {
        self.levels.checked_sub(1).ok_or_else(|| E::custom(Error::TooDeep))
    }

    fn array<S: Serializer>(&self, array: &Array, serializer: S) -> Result<S::Ok, S::Error> {
        let levels = self.below()?;
        let mut told = serializer.serialize_seq(Some(array.len()))?;
        for value in array {
            told.serialize_element(&Told { value, levels })?;
        }
        told.end()
    }

    fn map<S: Serializer>(&self, map: &Map, serializer: S) -> Result<S::Ok, S::Error> {
        let levels = self.below()?;
        let mut told = serializer.serialize_map(Some(map.len()))?;
        for (key, value) in map {
            told.serialize_entry(key, &Told { value, levels })?;
        }
        told.end()
    }
}

impl Serialize for Told<'_> {
    fn serialize<S: Serializer>(&self, serializer: S) -> Result<S::Ok, S::Error> {
        match self.value {
            Value::Unit => serializer.serialize_unit(),
            Value::Bool(truth) => serializer.serialize_bool(*truth),
            Value::Int(n) => serializer.serialize_i64(*n),
            Value::Char(character) => serializer.serialize_char(*character),
            Value::Text(text) => serializer.serialize_str(text),
            Value::Blob(bytes) => serializer.serialize_bytes(bytes),
            Value::Array(array) => self.array(array, serializer),
            Value::Map(map) => self.map(map, serializer),
            Value::U8(n) => serializer.serialize_u8(*n),
            Value::U16(n) => serializer.serialize_u16(*n),
            Value::U32(n) => serializer.serialize_u32(*n),
            Value::U64(n) => serializer.serialize_u64(*n),
            Value::U128(n) => serializer.serialize_u128(*n),
            Value::I8(n) => serializer.serialize_i8(*n),
            Value::I16(n) => serializer.serialize_i16(*n),
            Value::I32(n) => serializer.serialize_i32(*n),
            Value::I128(n) => serializer.serialize_i128(*n),
            Value::FnPtr(_, _) => Err(S::Error::custom(Error::NoForm("a function pointer"))),
            Value::Range(_, _) | Value::RangeWithEnd(_, _) => Err(S::Error::custom(Error::NoForm("a range"))),
            _ => Err(S::Error::custom(Error::NoForm("a value of a kind that this crate doesn't know"))),
        }
    }
}

/// The seed of a value to deserialize, with its levels.
#[derive(Clone, Copy)]
struct Wanted {
    levels: usize,
}

impl Wanted {
    fn below<E: de::Error>(self) -> Result<Wanted, E> {
        match self.levels.checked_sub(1) {
            Some(levels) => Ok(Wanted { levels }),
            None => Err(E::custom(Error::TooDeep)),
        }
    }
}

impl<'de> DeserializeSeed<'de> for Wanted {
    type Value = Value;

    fn deserialize<D: Deserializer<'de>>(self, deserializer: D) -> Result<Value, D::Error> {
        deserializer.deserialize_any(self)
    }
}

fn int<N: Copy + fmt::Display, E: de::Error>(n: N) -> Result<Value, E>
where
    i64: TryFrom<N>,
{
    i64::try_from(n).map(Value::Int).map_err(|_| E::custom(Error::Number { number: n.to_string(), wanted: "i64" }))
}

impl<'de> Visitor<'de> for Wanted {
    type Value = Value;

    fn expecting(&self, f: &mut fmt::Formatter<'_>) -> fmt::Result {
        f.write_str("a value of scripts")
    }

    fn visit_bool<E>(self, truth: bool) -> Result<Value, E> {
        Ok(Value::Bool(truth))
    }

    fn visit_i64<E>(self, n: i64) -> Result<Value, E> {
        Ok(Value::Int(n))
    }

    fn visit_u64<E: de::Error>(self, n: u64) -> Result<Value, E> {
        int(n)
    }

    fn visit_i128<E: de::Error>(self, n: i128) -> Result<Value, E> {
        int(n)
    }

    fn visit_u128<E: de::Error>(self, n: u128) -> Result<Value, E> {
        int(n)
    }

    fn visit_f64<E: de::Error>(self, _: f64) -> Result<Value, E> {
        Err(E::custom(Error::Float))
    }

    fn visit_char<E>(self, character: char) -> Result<Value, E> {
        Ok(Value::Char(character))
    }

    fn visit_str<E>(self, text: &str) -> Result<Value, E> {
        Ok(Value::from(text))
    }

    fn visit_string<E>(self, text: String) -> Result<Value, E> {
        Ok(Value::Text(text))
    }

    fn visit_bytes<E>(self, bytes: &[u8]) -> Result<Value, E> {
        Ok(Value::from(bytes))
    }

    fn visit_byte_buf<E>(self, bytes: Vec<u8>) -> Result<Value, E> {
        Ok(Value::Blob(bytes))
    }

    fn visit_none<E>(self) -> Result<Value, E> {
        Ok(Value::Unit)
    }

    fn visit_unit<E>(self) -> Result<Value, E> {
        Ok(Value::Unit)
    }

    fn visit_some<D: Deserializer<'de>>(self, deserializer: D) -> Result<Value, D::Error> {
        self.below()?.deserialize(deserializer)
    }

    fn visit_newtype_struct<D: Deserializer<'de>>(self, deserializer: D) -> Result<Value, D::Error> {
        self.below()?.deserialize(deserializer)
    }

    fn visit_seq<A: SeqAccess<'de>>(self, mut told: A) -> Result<Value, A::Error> {
        let inside = self.below()?;
        let mut array = Array::new();
        while let Some(value) = told.next_element_seed(inside)? {
            array.push(value);
        }
        Ok(Value::Array(array))
    }

    fn visit_map<A: MapAccess<'de>>(self, mut told: A) -> Result<Value, A::Error> {
        let inside = self.below()?;
        let mut fields = BTreeMap::new();
        while let Some(key) = told.next_key::<String>()? {
            match fields.entry(key) {
                Entry::Occupied(known) => return Err(A::Error::custom(Error::Twice(known.key().clone()))),
                Entry::Vacant(place) => {
                    place.insert(told.next_value_seed(inside)?);
                }
            }
        }
        Ok(Value::Map(Map::from(fields)))
    }
}
