//! Values from Rust types.
use rhai_world::{Array, Map, Value};
use rhai_world_serde::{to_value, Error};
use serde::ser::SerializeMap;
use serde::{Serialize, Serializer};
use std::collections::BTreeMap;

fn array(items: impl IntoIterator<Item = Value>) -> Value {
    Value::Array(items.into_iter().collect())
}

fn map<const N: usize>(fields: [(&str, Value); N]) -> Value {
    Value::Map(fields.into_iter().map(|(key, value)| (key.to_owned(), value)).collect())
}

fn text(text: &str) -> Value {
    Value::from(text)
}

#[derive(Serialize)]
struct Nothing;

#[derive(Serialize)]
struct Meters(i64);

#[derive(Serialize)]
struct Pair(i64, bool);

#[derive(Serialize)]
struct Point {
    x: i64,
    y: Option<i64>,
}

#[derive(Serialize)]
enum Shape {
    Empty,
    Circle(u8),
    Line(i64, i64),
    At { x: i64 },
}

#[test]
fn leaves() -> Result<(), Error> {
    assert_eq!(to_value(&())?, Value::Unit);
    assert_eq!(to_value(&Nothing)?, Value::Unit);
    assert_eq!(to_value(&None::<i64>)?, Value::Unit);
    assert_eq!(to_value(&Some(3))?, Value::Int(3));
    assert_eq!(to_value(&true)?, Value::Bool(true));
    assert_eq!(to_value(&'ß')?, Value::Char('ß'));
    assert_eq!(to_value("text")?, text("text"));
    assert_eq!(to_value(&String::new())?, text(""));
    assert_eq!(to_value(&Meters(5))?, Value::Int(5));
    Ok(())
}

#[test]
fn whole_numbers_are_ints_where_they_fit() -> Result<(), Error> {
    assert_eq!(to_value(&i8::MIN)?, Value::Int(-128));
    assert_eq!(to_value(&u8::MAX)?, Value::Int(255));
    assert_eq!(to_value(&u32::MAX)?, Value::Int(4_294_967_295));
    assert_eq!(to_value(&i64::MIN)?, Value::Int(i64::MIN));
    assert_eq!(to_value(&9_223_372_036_854_775_807_u64)?, Value::Int(i64::MAX));
    assert_eq!(to_value(&-1_i128)?, Value::Int(-1));
    let past = Error::Number { number: "9223372036854775808".to_owned(), wanted: "i64" };
    assert_eq!(to_value(&9_223_372_036_854_775_808_u64), Err(past.clone()));
    assert_eq!(to_value(&9_223_372_036_854_775_808_u128), Err(past.clone()));
    assert_eq!(to_value(&[vec![9_223_372_036_854_775_808_i128]]), Err(past));
    let below = to_value(&-9_223_372_036_854_775_809_i128).unwrap_err();
    assert_eq!(below.to_string(), "-9223372036854775809 is no i64");
    Ok(())
}

#[test]
fn floats_are_refused() {
    assert_eq!(to_value(&1.0_f64), Err(Error::Float));
    assert_eq!(to_value(&1.0_f32), Err(Error::Float));
    assert_eq!(to_value(&vec![("x", 0.5)]), Err(Error::Float));
    assert_eq!(Error::Float.to_string(), "values have no floats");
}

#[test]
fn sequences_maps_and_structs() -> Result<(), Error> {
    assert_eq!(to_value(&[1, 2])?, array([Value::Int(1), Value::Int(2)]));
    assert_eq!(to_value(&Vec::<i64>::new())?, Value::Array(Array::new()));
    assert_eq!(to_value(&(1, "two", 'c'))?, array([Value::Int(1), text("two"), Value::Char('c')]));
    assert_eq!(to_value(&Pair(1, false))?, array([Value::Int(1), Value::Bool(false)]));
    assert_eq!(to_value(&Point { x: 1, y: None })?, map([("x", Value::Int(1)), ("y", Value::Unit)]));
    assert_eq!(to_value(&BTreeMap::from([("b", 2), ("a", 1)]))?, map([("a", Value::Int(1)), ("b", Value::Int(2))]));
    assert_eq!(to_value(&BTreeMap::<String, i64>::new())?, Value::Map(Map::new()));
    Ok(())
}

#[test]
fn variants_are_tagged_outside() -> Result<(), Error> {
    assert_eq!(to_value(&Shape::Empty)?, text("Empty"));
    assert_eq!(to_value(&Shape::Circle(9))?, map([("Circle", Value::Int(9))]));
    assert_eq!(to_value(&Shape::Line(1, -1))?, map([("Line", array([Value::Int(1), Value::Int(-1)]))]));
    assert_eq!(to_value(&Shape::At { x: 4 })?, map([("At", map([("x", Value::Int(4))]))]));
    Ok(())
}

#[test]
fn keys_are_texts() -> Result<(), Error> {
    assert_eq!(to_value(&BTreeMap::from([(7_u8, ())]))?, map([("7", Value::Unit)]));
    assert_eq!(to_value(&BTreeMap::from([(-7_i64, ())]))?, map([("-7", Value::Unit)]));
    assert_eq!(to_value(&BTreeMap::from([('c', ())]))?, map([("c", Value::Unit)]));
    assert_eq!(to_value(&BTreeMap::from([(true, ())]))?, map([("true", Value::Unit)]));
    assert_eq!(to_value(&BTreeMap::from([((), ())])), Err(Error::Key));
    assert_eq!(to_value(&BTreeMap::from([((1, 2), ())])), Err(Error::Key));
    assert_eq!(to_value(&BTreeMap::from([(Some("a"), ())])), Err(Error::Key));
    assert_eq!(to_value(&BTreeMap::from([(vec![1], ())])), Err(Error::Key));
    Ok(())
}

/// A map that serializes these keys.
struct Keys(&'static [&'static str]);

impl Serialize for Keys {
    fn serialize<S: Serializer>(&self, serializer: S) -> Result<S::Ok, S::Error> {
        let mut told = serializer.serialize_map(None)?;
        for key in self.0 {
            told.serialize_entry(key, &1)?;
        }
        told.end()
    }
}

#[test]
fn no_key_is_there_twice() -> Result<(), Error> {
    assert_eq!(to_value(&Keys(&["b", "a"]))?, map([("a", Value::Int(1)), ("b", Value::Int(1))]));
    assert_eq!(to_value(&Keys(&["a", "b", "a"])), Err(Error::Twice("a".to_owned())));
    Ok(())
}

/// A map that serializes only keys or only values.
struct Half(bool);

impl Serialize for Half {
    fn serialize<S: Serializer>(&self, serializer: S) -> Result<S::Ok, S::Error> {
        let mut told = serializer.serialize_map(None)?;
        if self.0 {
            told.serialize_key("a")?;
        } else {
            told.serialize_value(&1)?;
        }
        told.end()
    }
}

#[test]
fn keys_and_values_come_in_turn() {
    assert_eq!(to_value(&Half(true)), Err(Error::Message("a key without a value".to_owned())));
    assert_eq!(to_value(&Half(false)), Err(Error::Message("a value without a key".to_owned())));
}

/// Bytes.
struct Bytes;

impl Serialize for Bytes {
    fn serialize<S: Serializer>(&self, serializer: S) -> Result<S::Ok, S::Error> {
        serializer.serialize_bytes(&[1, 2, 255])
    }
}

#[test]
fn bytes_are_blobs() -> Result<(), Error> {
    assert_eq!(to_value(&Bytes)?, Value::Blob(vec![1, 2, 255]));
    assert_eq!(to_value(&[1_u8])?, array([Value::Int(1)]));
    Ok(())
}
