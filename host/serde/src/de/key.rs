//! Keys of maps, and names of variants.
use crate::error::Error;
use serde::de::{IntoDeserializer, Visitor};
use serde::forward_to_deserialize_any;
use std::fmt::Display;
use std::str::FromStr;

/// Deserializes from a key: a text, or a value written as one.
pub struct KeyDeserializer {
    key: String,
}

impl KeyDeserializer {
    pub fn new(key: String) -> KeyDeserializer {
        KeyDeserializer { key }
    }

    /// Parses the key. It has one spelling per value, so that two keys can't become one.
    fn read<T: FromStr + Display>(self, wanted: &'static str) -> Result<T, Error> {
        match self.key.parse::<T>() {
            Ok(read) if read.to_string() == self.key => Ok(read),
            Ok(_) | Err(_) => Err(Error::KeyForm { key: self.key, wanted }),
        }
    }
}

macro_rules! read {
    ($($method:ident $visit:ident $kind:ident),*) => {
        $(fn $method<V: Visitor<'de>>(self, visitor: V) -> Result<V::Value, Error> {
            visitor.$visit(self.read::<$kind>(stringify!($kind))?)
        })*
    };
}

impl<'de> serde::Deserializer<'de> for KeyDeserializer {
    type Error = Error;

    forward_to_deserialize_any! {
        char str string bytes byte_buf unit unit_struct seq tuple tuple_struct map struct identifier ignored_any
    }

    read! {
        deserialize_bool visit_bool bool,
        deserialize_i8 visit_i8 i8, deserialize_i16 visit_i16 i16, deserialize_i32 visit_i32 i32, deserialize_i64 visit_i64 i64,
        deserialize_i128 visit_i128 i128, deserialize_u8 visit_u8 u8, deserialize_u16 visit_u16 u16,
        deserialize_u32 visit_u32 u32, deserialize_u64 visit_u64 u64, deserialize_u128 visit_u128 u128
    }

    fn deserialize_any<V: Visitor<'de>>(self, visitor: V) -> Result<V::Value, Error> {
        visitor.visit_string(self.key)
    }

    fn deserialize_f32<V: Visitor<'de>>(self, _: V) -> Result<V::Value, Error> {
        Err(Error::Float)
    }

    fn deserialize_f64<V: Visitor<'de>>(self, _: V) -> Result<V::Value, Error> {
        Err(Error::Float)
    }

    fn deserialize_option<V: Visitor<'de>>(self, visitor: V) -> Result<V::Value, Error> {
        visitor.visit_some(self)
    }

    fn deserialize_newtype_struct<V: Visitor<'de>>(self, _: &'static str, visitor: V) -> Result<V::Value, Error> {
        visitor.visit_newtype_struct(self)
    }

    fn deserialize_enum<V: Visitor<'de>>(
        self,
        _: &'static str,
        _: &'static [&'static str],
        visitor: V,
    ) -> Result<V::Value, Error> {
        visitor.visit_enum(self.key.into_deserializer())
    }
}
