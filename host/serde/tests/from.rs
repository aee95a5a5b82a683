//! Rust types from values.
use rhai_world::{Array, Map, Value};
use rhai_world_serde::{from_value, Error};
use serde::de::IgnoredAny;
use serde::Deserialize;
use std::collections::{BTreeMap, HashMap};

fn array<const N: usize>(items: [Value; N]) -> Value {
    Value::Array(items.into_iter().collect())
}

fn map<const N: usize>(fields: [(&str, Value); N]) -> Value {
    Value::Map(fields.into_iter().map(|(key, value)| (key.to_owned(), value)).collect())
}

fn text(text: &str) -> Value {
    Value::from(text)
}

/// The message for a value that isn't of the type.
fn refused<T: for<'de> Deserialize<'de> + std::fmt::Debug>(value: Value) -> String {
    from_value::<T>(value).unwrap_err().to_string()
}

#[derive(Deserialize, Debug, PartialEq)]
struct Nothing;

#[derive(Deserialize, Debug, PartialEq)]
struct Meters(i64);

#[derive(Deserialize, Debug, PartialEq)]
struct Point {
    x: i64,
    y: Option<i64>,
}

#[derive(Deserialize, Debug, PartialEq)]
#[serde(deny_unknown_fields)]
struct Strict {
    x: i64,
}

#[derive(Deserialize, Debug, PartialEq)]
enum Shape {
    Empty,
    Circle(u8),
    Line(i64, i64),
    At { x: i64 },
}

#[test]
fn leaves() -> Result<(), Error> {
    from_value::<()>(Value::Unit)?;
    assert_eq!(from_value::<Nothing>(Value::Unit)?, Nothing);
    assert!(from_value::<bool>(Value::Bool(true))?);
    assert_eq!(from_value::<char>(Value::Char('x'))?, 'x');
    assert_eq!(from_value::<char>(text("x"))?, 'x');
    assert_eq!(from_value::<String>(text("abc"))?, "abc");
    assert_eq!(from_value::<String>(Value::Char('c'))?, "c");
    assert_eq!(from_value::<Option<i64>>(Value::Unit)?, None);
    assert_eq!(from_value::<Option<i64>>(Value::Int(3))?, Some(3));
    assert_eq!(from_value::<Meters>(Value::Int(5))?, Meters(5));
    assert_eq!(refused::<bool>(Value::Int(1)), "invalid type: integer `1`, expected a boolean");
    assert_eq!(refused::<String>(Value::Unit), "invalid type: unit value, expected a string");
    assert_eq!(refused::<char>(text("xy")), r#"invalid value: string "xy", expected a character"#);
    Ok(())
}

#[test]
fn numbers_fit_or_are_refused() -> Result<(), Error> {
    assert_eq!(from_value::<u8>(Value::Int(255))?, 255);
    assert_eq!(from_value::<i128>(Value::Int(-1))?, -1);
    assert_eq!(from_value::<i64>(Value::U64(1))?, 1);
    assert_eq!(from_value::<u128>(Value::U128(u128::MAX))?, u128::MAX);
    assert_eq!(from_value::<i128>(Value::I128(i128::MIN))?, i128::MIN);
    assert_eq!(from_value::<u16>(Value::I8(7))?, 7);
    assert_eq!(from_value::<u8>(Value::Int(256)), Err(Error::Number { number: "256".to_owned(), wanted: "u8" }));
    assert_eq!(from_value::<u64>(Value::Int(-1)), Err(Error::Number { number: "-1".to_owned(), wanted: "u64" }));
    let largest = "340282366920938463463374607431768211455";
    assert_eq!(refused::<i128>(Value::U128(u128::MAX)), format!("{largest} is no i128"));
    assert_eq!(refused::<i64>(text("1")), r#"invalid type: string "1", expected i64"#);
    Ok(())
}

#[test]
fn floats_are_refused() {
    assert_eq!(from_value::<f64>(Value::Int(1)), Err(Error::Float));
    assert_eq!(from_value::<f32>(Value::Int(1)), Err(Error::Float));
    assert_eq!(from_value::<Vec<f64>>(array([Value::Int(1)])), Err(Error::Float));
}

#[test]
fn sequences() -> Result<(), Error> {
    assert_eq!(from_value::<Vec<i64>>(array([Value::Int(1), Value::Int(2)]))?, [1, 2]);
    assert_eq!(from_value::<(i64, String)>(array([Value::Int(1), text("a")]))?, (1, "a".to_owned()));
    assert_eq!(from_value::<Vec<u8>>(Value::Blob(vec![1, 255]))?, [1, 255]);
    assert_eq!(from_value::<[u8; 2]>(Value::Blob(vec![1, 255]))?, [1, 255]);
    assert_eq!(from_value::<Point>(array([Value::Int(1), Value::Unit]))?, Point { x: 1, y: None });
    let three = array([Value::Int(1), Value::Int(2), Value::Int(3)]);
    assert_eq!(refused::<(i64, i64)>(three), "invalid length 3, expected an array of fewer items");
    assert_eq!(refused::<(i64, i64)>(array([Value::Int(1)])), "invalid length 1, expected a tuple of size 2");
    assert!(from_value::<[u8; 2]>(Value::Blob(vec![1, 2, 3])).is_err());
    Ok(())
}

#[test]
fn maps_and_structs() -> Result<(), Error> {
    let fields = map([("x", Value::Int(1)), ("y", Value::Int(2))]);
    assert_eq!(from_value::<Point>(fields.clone())?, Point { x: 1, y: Some(2) });
    assert_eq!(from_value::<Point>(map([("x", Value::Int(1))]))?, Point { x: 1, y: None });
    assert_eq!(from_value::<BTreeMap<String, i64>>(fields)?, BTreeMap::from([("x".to_owned(), 1), ("y".to_owned(), 2)]));
    assert_eq!(refused::<Point>(map([("y", Value::Unit)])), "missing field `x`");
    let more = map([("x", Value::Int(1)), ("z", Value::Int(2))]);
    assert_eq!(refused::<Strict>(more.clone()), "unknown field `z`, expected `x`");
    assert_eq!(from_value::<Point>(more)?, Point { x: 1, y: None });
    Ok(())
}

#[test]
fn keys_are_read_as_they_are_written() -> Result<(), Error> {
    let numbers = map([("-7", Value::Int(1)), ("8", Value::Int(2))]);
    assert_eq!(from_value::<HashMap<i64, i64>>(numbers)?, HashMap::from([(-7, 1), (8, 2)]));
    assert_eq!(from_value::<HashMap<bool, i64>>(map([("true", Value::Int(1))]))?, HashMap::from([(true, 1)]));
    assert_eq!(from_value::<HashMap<char, i64>>(map([("c", Value::Int(1))]))?, HashMap::from([('c', 1)]));
    for key in ["07", "+7", " 7", "7.0", "x", "300", ""] {
        let found = from_value::<HashMap<u8, i64>>(map([(key, Value::Int(1))]));
        assert_eq!(found, Err(Error::KeyForm { key: key.to_owned(), wanted: "u8" }));
    }
    Ok(())
}

#[test]
fn variants() -> Result<(), Error> {
    assert_eq!(from_value::<Shape>(text("Empty"))?, Shape::Empty);
    assert_eq!(from_value::<Shape>(map([("Empty", Value::Unit)]))?, Shape::Empty);
    assert_eq!(from_value::<Shape>(map([("Circle", Value::Int(9))]))?, Shape::Circle(9));
    assert_eq!(from_value::<Shape>(map([("Line", array([Value::Int(1), Value::Int(2)]))]))?, Shape::Line(1, 2));
    assert_eq!(from_value::<Shape>(map([("At", map([("x", Value::Int(4))]))]))?, Shape::At { x: 4 });
    assert_eq!(refused::<Shape>(text("Other")), "unknown variant `Other`, expected one of `Empty`, `Circle`, `Line`, `At`");
    assert_eq!(refused::<Shape>(text("Circle")), "invalid type: unit variant, expected a variant with content");
    assert_eq!(refused::<Shape>(map([("Circle", Value::Int(300))])), "300 is no u8");
    assert_eq!(
        refused::<Shape>(map([("Empty", Value::Int(1))])),
        "invalid type: integer `1`, expected a variant without content"
    );
    assert_eq!(refused::<Shape>(map([("Line", Value::Int(1))])), "invalid type: integer `1`, expected a variant with an array");
    assert_eq!(refused::<Shape>(map([("At", Value::Int(1))])), "invalid type: integer `1`, expected a variant with a map");
    assert_eq!(refused::<Shape>(Value::Map(Map::new())), "invalid value: map, expected a map of one key");
    assert_eq!(
        refused::<Shape>(map([("At", Value::Unit), ("Line", Value::Unit)])),
        "invalid value: map, expected a map of one key"
    );
    assert_eq!(refused::<Shape>(Value::Int(1)), "invalid type: integer `1`, expected a text or a map of one key");
    Ok(())
}

#[derive(Deserialize, Debug, PartialEq)]
#[serde(tag = "kind")]
enum Tagged {
    Circle { radius: u8 },
    Empty,
}

#[derive(Deserialize, Debug, PartialEq)]
#[serde(untagged)]
enum Either {
    Number(i64),
    Word(String),
}

#[derive(Deserialize, Debug, PartialEq)]
struct Outer {
    x: i64,
    #[serde(flatten)]
    rest: BTreeMap<String, i64>,
}

#[test]
fn other_forms_of_serde() -> Result<(), Error> {
    let circle = map([("kind", text("Circle")), ("radius", Value::Int(3))]);
    assert_eq!(from_value::<Tagged>(circle)?, Tagged::Circle { radius: 3 });
    assert_eq!(from_value::<Tagged>(map([("kind", text("Empty"))]))?, Tagged::Empty);
    assert!(from_value::<Tagged>(map([("kind", text("Circle")), ("radius", Value::Int(300))])).is_err());
    assert_eq!(from_value::<Either>(Value::Int(1))?, Either::Number(1));
    assert_eq!(from_value::<Either>(text("one"))?, Either::Word("one".to_owned()));
    assert!(from_value::<Either>(Value::Unit).is_err());
    let rest = BTreeMap::from([("y".to_owned(), 2), ("z".to_owned(), 3)]);
    let fields = map([("x", Value::Int(1)), ("y", Value::Int(2)), ("z", Value::Int(3))]);
    assert_eq!(from_value::<Outer>(fields)?, Outer { x: 1, rest });
    Ok(())
}

#[test]
fn what_has_no_form_is_refused() {
    let pointer = Value::FnPtr("f".to_owned(), Array::new());
    assert_eq!(from_value::<String>(pointer.clone()), Err(Error::NoForm("a function pointer")));
    assert_eq!(from_value::<Vec<String>>(array([pointer])), Err(Error::NoForm("a function pointer")));
    assert_eq!(refused::<String>(Value::Range(0, 1)), "a range has no form outside of scripts");
    assert_eq!(from_value::<i64>(Value::RangeWithEnd(0, 1)), Err(Error::NoForm("a range")));
}

#[test]
fn what_is_ignored_may_be_anything() -> Result<(), Error> {
    from_value::<IgnoredAny>(Value::FnPtr("f".to_owned(), Array::new()))?;
    assert_eq!(from_value::<Point>(map([("x", Value::Int(1)), ("other", Value::Range(0, 1))]))?, Point { x: 1, y: None });
    Ok(())
}
