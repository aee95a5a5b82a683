//! The contents of arrays, maps and variants.
use super::key::KeyDeserializer;
use super::{below, unexpected, visited, Deserializer};
use crate::error::Error;
use rhai_world::{Map, Value};
use serde::de::{DeserializeSeed, EnumAccess, Error as _, MapAccess, SeqAccess, Unexpected, VariantAccess, Visitor};
use std::vec::IntoIter;

/// Passes an array to a visitor, which has to take all of it.
pub fn items<'de, V: Visitor<'de>>(items: Vec<Value>, levels: usize, visitor: V) -> Result<V::Value, Error> {
    let count = items.len();
    let mut items = Items { left: items.into_iter(), levels };
    let made = visitor.visit_seq(&mut items)?;
    if items.left.len() > 0 {
        return Err(Error::invalid_length(count, &"an array of fewer items"));
    }
    Ok(made)
}

/// Passes a map to a visitor, which has to take all of it.
pub fn fields<'de, V: Visitor<'de>>(map: Map, levels: usize, visitor: V) -> Result<V::Value, Error> {
    let count = map.len();
    let mut fields = Fields { left: map.into_iter(), content: None, levels };
    let made = visitor.visit_map(&mut fields)?;
    if fields.left.len() > 0 {
        return Err(Error::invalid_length(count, &"a map of fewer keys"));
    }
    Ok(made)
}

struct Items {
    left: IntoIter<Value>,
    levels: usize,
}

impl<'de> SeqAccess<'de> for Items {
    type Error = Error;

    fn next_element_seed<T: DeserializeSeed<'de>>(&mut self, seed: T) -> Result<Option<T::Value>, Error> {
        match self.left.next() {
            Some(value) => seed.deserialize(Deserializer::within(value, self.levels)).map(Some),
            None => Ok(None),
        }
    }

    fn size_hint(&self) -> Option<usize> {
        Some(self.left.len())
    }
}

struct Fields {
    left: IntoIter<(String, Value)>,
    content: Option<Value>,
    levels: usize,
}

impl<'de> MapAccess<'de> for Fields {
    type Error = Error;

    fn next_key_seed<T: DeserializeSeed<'de>>(&mut self, seed: T) -> Result<Option<T::Value>, Error> {
        match self.left.next() {
            Some((key, content)) => {
                self.content = Some(content);
                seed.deserialize(KeyDeserializer::new(key)).map(Some)
            }
            None => Ok(None),
        }
    }

    fn next_value_seed<T: DeserializeSeed<'de>>(&mut self, seed: T) -> Result<T::Value, Error> {
        let content = self.content.take().ok_or_else(|| Error::custom("a value without a key"))?;
        seed.deserialize(Deserializer::within(content, self.levels))
    }

    fn size_hint(&self) -> Option<usize> {
        Some(self.left.len())
    }
}

/// A variant with its content.
pub struct Content {
    pub variant: String,
    pub content: Option<Value>,
    pub levels: usize,
}

impl<'de> EnumAccess<'de> for Content {
    type Error = Error;
    type Variant = Content;

    fn variant_seed<T: DeserializeSeed<'de>>(mut self, seed: T) -> Result<(T::Value, Content), Error> {
        let variant = std::mem::take(&mut self.variant);
        Ok((seed.deserialize(KeyDeserializer::new(variant))?, self))
    }
}

impl Content {
    fn refused<T>(content: Option<Value>, wanted: &'static str) -> Result<T, Error> {
        match content {
            Some(value) => Err(Error::invalid_type(unexpected(&value), &wanted)),
            None => Err(Error::invalid_type(Unexpected::UnitVariant, &wanted)),
        }
    }
}

impl<'de> VariantAccess<'de> for Content {
    type Error = Error;

    fn unit_variant(self) -> Result<(), Error> {
        match self.content {
            None | Some(Value::Unit) => Ok(()),
            Some(value) => Content::refused(Some(value), "a variant without content"),
        }
    }

    fn newtype_variant_seed<T: DeserializeSeed<'de>>(self, seed: T) -> Result<T::Value, Error> {
        match self.content {
            Some(content) => seed.deserialize(Deserializer::within(content, self.levels)),
            None => Content::refused(None, "a variant with content"),
        }
    }

    fn tuple_variant<V: Visitor<'de>>(self, _: usize, visitor: V) -> Result<V::Value, Error> {
        match self.content {
            Some(Value::Array(array)) => items(array.into_vec(), below(self.levels)?, visitor),
            content => Content::refused(content, "a variant with an array"),
        }
    }

    fn struct_variant<V: Visitor<'de>>(self, _: &'static [&'static str], visitor: V) -> Result<V::Value, Error> {
        match self.content {
            Some(content @ (Value::Map(_) | Value::Array(_))) => visited(content, self.levels, visitor),
            content => Content::refused(content, "a variant with a map"),
        }
    }
}
