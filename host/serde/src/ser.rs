//! Serializes Rust types to values.
mod compound;
mod key;

use crate::error::Error;
use crate::LEVELS;
use compound::{Fields, Items};
use rhai_world::{Array, Map, Value};
use serde::Serialize;
use std::fmt::Display;

/// Serializes to values, up to a number of levels.
///
/// ```
/// use rhai_world_serde::{Error, Serializer};
/// use serde::Serialize;
///
/// assert_eq!([[7]].serialize(Serializer::within(1)), Err(Error::TooDeep));
/// assert!([[7]].serialize(Serializer::within(2)).is_ok());
/// ```
#[derive(Clone, Copy, Debug)]
pub struct Serializer {
    levels: usize,
}

impl Serializer {
    /// Serializes up to [`LEVELS`] levels.
    pub const fn new() -> Serializer {
        Serializer::within(LEVELS)
    }

    /// Serializes up to this many levels. A thread has enough stack for [`LEVELS`] of most types.
    pub const fn within(levels: usize) -> Serializer {
        Serializer { levels }
    }

    /// Returns the serializer for what is inside.
    fn inside(self) -> Result<Serializer, Error> {
        self.levels.checked_sub(1).map(Serializer::within).ok_or(Error::TooDeep)
    }
}

impl Default for Serializer {
    fn default() -> Serializer {
        Serializer::new()
    }
}

/// Converts the number to an int.
fn int<N: Copy + Display>(n: N) -> Result<Value, Error>
where
    i64: TryFrom<N>,
{
    i64::try_from(n).map(Value::Int).map_err(|_| Error::Number { number: n.to_string(), wanted: "i64" })
}

/// Wraps the content of a variant in a map from the variant's name.
fn tagged(variant: &'static str, content: Value) -> Value {
    let mut map = Map::new();
    map.insert(variant, content);
    Value::Map(map)
}

macro_rules! ints {
    ($($method:ident $kind:ty),*) => {
        $(fn $method(self, n: $kind) -> Result<Value, Error> {
            int(n)
        })*
    };
}

impl serde::Serializer for Serializer {
    type Ok = Value;
    type Error = Error;
    type SerializeSeq = Items;
    type SerializeTuple = Items;
    type SerializeTupleStruct = Items;
    type SerializeTupleVariant = Items;
    type SerializeMap = Fields;
    type SerializeStruct = Fields;
    type SerializeStructVariant = Fields;

    ints! {
        serialize_i8 i8, serialize_i16 i16, serialize_i32 i32, serialize_i64 i64, serialize_i128 i128,
        serialize_u8 u8, serialize_u16 u16, serialize_u32 u32, serialize_u64 u64, serialize_u128 u128
    }

    fn serialize_bool(self, truth: bool) -> Result<Value, Error> {
        Ok(Value::Bool(truth))
    }

    fn serialize_f32(self, _: f32) -> Result<Value, Error> {
        Err(Error::Float)
    }

    fn serialize_f64(self, _: f64) -> Result<Value, Error> {
        Err(Error::Float)
    }

    fn serialize_char(self, character: char) -> Result<Value, Error> {
        Ok(Value::Char(character))
    }

    fn serialize_str(self, text: &str) -> Result<Value, Error> {
        Ok(Value::from(text))
    }

    fn serialize_bytes(self, bytes: &[u8]) -> Result<Value, Error> {
        Ok(Value::from(bytes))
    }

    fn serialize_none(self) -> Result<Value, Error> {
        Ok(Value::Unit)
    }

    fn serialize_some<T: Serialize + ?Sized>(self, content: &T) -> Result<Value, Error> {
        content.serialize(self.inside()?)
    }

    fn serialize_unit(self) -> Result<Value, Error> {
        Ok(Value::Unit)
    }

    fn serialize_unit_struct(self, _: &'static str) -> Result<Value, Error> {
        Ok(Value::Unit)
    }

    fn serialize_unit_variant(self, _: &'static str, _: u32, variant: &'static str) -> Result<Value, Error> {
        Ok(Value::from(variant))
    }

    fn serialize_newtype_struct<T: Serialize + ?Sized>(self, _: &'static str, content: &T) -> Result<Value, Error> {
        content.serialize(self.inside()?)
    }

    fn serialize_newtype_variant<T: Serialize + ?Sized>(
        self,
        _: &'static str,
        _: u32,
        variant: &'static str,
        content: &T,
    ) -> Result<Value, Error> {
        Ok(tagged(variant, content.serialize(self.inside()?)?))
    }

    fn serialize_seq(self, count: Option<usize>) -> Result<Items, Error> {
        Ok(Items::new(self.inside()?, count.unwrap_or(0), None))
    }

    fn serialize_tuple(self, count: usize) -> Result<Items, Error> {
        Ok(Items::new(self.inside()?, count, None))
    }

    fn serialize_tuple_struct(self, _: &'static str, count: usize) -> Result<Items, Error> {
        Ok(Items::new(self.inside()?, count, None))
    }

    fn serialize_tuple_variant(self, _: &'static str, _: u32, variant: &'static str, count: usize) -> Result<Items, Error> {
        Ok(Items::new(self.inside()?.inside()?, count, Some(variant)))
    }

    fn serialize_map(self, _: Option<usize>) -> Result<Fields, Error> {
        Ok(Fields::new(self.inside()?, None))
    }

    fn serialize_struct(self, _: &'static str, _: usize) -> Result<Fields, Error> {
        Ok(Fields::new(self.inside()?, None))
    }

    fn serialize_struct_variant(self, _: &'static str, _: u32, variant: &'static str, _: usize) -> Result<Fields, Error> {
        Ok(Fields::new(self.inside()?.inside()?, Some(variant)))
    }
}

/// Makes an array, or a variant that contains it.
fn array(variant: Option<&'static str>, items: Vec<Value>) -> Value {
    let items = Value::Array(Array::from(items));
    match variant {
        Some(variant) => tagged(variant, items),
        None => items,
    }
}
