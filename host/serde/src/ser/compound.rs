//! Arrays and maps being built.
use super::key::KeySerializer;
use super::{array, tagged, Serializer};
use crate::error::Error;
use rhai_world::{Map, Value};
use serde::ser::{
    Error as _, SerializeMap, SerializeSeq, SerializeStruct, SerializeStructVariant, SerializeTuple, SerializeTupleStruct,
    SerializeTupleVariant,
};
use serde::Serialize;
use std::collections::btree_map::Entry;
use std::collections::BTreeMap;

/// The most items that are allocated in advance, since a type may announce any count.
const AHEAD: usize = 4096;

/// An array being built.
pub struct Items {
    inside: Serializer,
    items: Vec<Value>,
    variant: Option<&'static str>,
}

impl Items {
    pub(super) fn new(inside: Serializer, count: usize, variant: Option<&'static str>) -> Items {
        Items { inside, items: Vec::with_capacity(count.min(AHEAD)), variant }
    }

    fn add<T: Serialize + ?Sized>(&mut self, item: &T) -> Result<(), Error> {
        self.items.push(item.serialize(self.inside)?);
        Ok(())
    }

    fn whole(self) -> Result<Value, Error> {
        Ok(array(self.variant, self.items))
    }
}

macro_rules! items {
    ($($kind:ident $method:ident),*) => {
        $(impl $kind for Items {
            type Ok = Value;
            type Error = Error;

            fn $method<T: Serialize + ?Sized>(&mut self, item: &T) -> Result<(), Error> {
                self.add(item)
            }

            fn end(self) -> Result<Value, Error> {
                self.whole()
            }
        })*
    };
}

items! {
    SerializeSeq serialize_element, SerializeTuple serialize_element, SerializeTupleStruct serialize_field,
    SerializeTupleVariant serialize_field
}

/// A map being built.
pub struct Fields {
    inside: Serializer,
    fields: BTreeMap<String, Value>,
    key: Option<String>,
    variant: Option<&'static str>,
}

impl Fields {
    pub(super) fn new(inside: Serializer, variant: Option<&'static str>) -> Fields {
        Fields { inside, fields: BTreeMap::new(), key: None, variant }
    }

    fn add<T: Serialize + ?Sized>(&mut self, key: String, content: &T) -> Result<(), Error> {
        let content = content.serialize(self.inside)?;
        match self.fields.entry(key) {
            Entry::Occupied(known) => Err(Error::Twice(known.key().clone())),
            Entry::Vacant(place) => {
                place.insert(content);
                Ok(())
            }
        }
    }

    fn whole(self) -> Result<Value, Error> {
        if self.key.is_some() {
            return Err(Error::custom("a key without a value"));
        }
        let fields = Value::Map(Map::from(self.fields));
        Ok(match self.variant {
            Some(variant) => tagged(variant, fields),
            None => fields,
        })
    }
}

impl SerializeMap for Fields {
    type Ok = Value;
    type Error = Error;

    fn serialize_key<T: Serialize + ?Sized>(&mut self, key: &T) -> Result<(), Error> {
        match self.key.replace(key.serialize(KeySerializer)?) {
            None => Ok(()),
            Some(_) => Err(Error::custom("a key without a value")),
        }
    }

    fn serialize_value<T: Serialize + ?Sized>(&mut self, content: &T) -> Result<(), Error> {
        let key = self.key.take().ok_or_else(|| Error::custom("a value without a key"))?;
        self.add(key, content)
    }

    fn end(self) -> Result<Value, Error> {
        self.whole()
    }
}

macro_rules! fields {
    ($($kind:ident),*) => {
        $(impl $kind for Fields {
            type Ok = Value;
            type Error = Error;

            fn serialize_field<T: Serialize + ?Sized>(&mut self, key: &'static str, content: &T) -> Result<(), Error> {
                self.add(key.to_owned(), content)
            }

            fn end(self) -> Result<Value, Error> {
                self.whole()
            }
        })*
    };
}

fields! { SerializeStruct, SerializeStructVariant }
