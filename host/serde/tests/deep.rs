//! Deep nesting.
use rhai_world::{Array, Map, Value};
use rhai_world_serde::{from_value, to_value, Deserializer, Error, Serializer, Wire, LEVELS};
use serde::de::IgnoredAny;
use serde::{Deserialize, Serialize};

#[derive(Serialize, Deserialize, Debug)]
struct List(Option<Box<List>>);

#[derive(Serialize, Deserialize, Debug)]
enum Tree {
    Leaf,
    Node(Vec<Tree>),
}

#[derive(Serialize, Deserialize, Debug)]
struct Rose {
    below: Vec<Rose>,
}

fn arrays(levels: usize) -> Value {
    (0..levels).fold(Value::Unit, |inside, _| Value::Array([inside].into_iter().collect::<Array>()))
}

fn maps(levels: usize) -> Value {
    (0..levels).fold(Value::Unit, |inside, _| Value::Map([("a".to_owned(), inside)].into_iter().collect::<Map>()))
}

#[test]
fn levels_out_of_rust() -> Result<(), Error> {
    // (a list has two levels: the newtype and the option)
    let list = |length: usize| (0..length).fold(List(None), |below, _| List(Some(Box::new(below))));
    assert_eq!(to_value(&list(63))?, Value::Unit);
    assert_eq!(to_value(&list(64)).unwrap_err(), Error::TooDeep);
    assert_eq!(to_value(&list(10_000)).unwrap_err(), Error::TooDeep);
    // (a node has two: the map of its name, and the array)
    let tree = |height: usize| (0..height).fold(Tree::Leaf, |below, _| Tree::Node(vec![below]));
    assert!(to_value(&tree(64)).is_ok());
    assert_eq!(to_value(&tree(65)).unwrap_err(), Error::TooDeep);
    assert_eq!(Error::TooDeep.to_string(), "nested too deep");
    assert_eq!([[[1]]].serialize(Serializer::within(2)), Err(Error::TooDeep));
    assert!([[[1]]].serialize(Serializer::within(3)).is_ok());
    Ok(())
}

#[test]
fn levels_into_rust() -> Result<(), Error> {
    let mut rose = Value::Array(Array::new());
    for level in 1..200 {
        let found = from_value::<Rose>(Value::Map([("below".to_owned(), rose.clone())].into_iter().collect()));
        // (a rose has two levels: the map and the array)
        assert_eq!(found.is_ok(), level <= LEVELS / 2, "{level}");
        rose = Value::Array([Value::Map([("below".to_owned(), rose)].into_iter().collect())].into_iter().collect());
    }
    assert_eq!(i64::deserialize(Deserializer::within(Value::Int(1), 0)), Ok(1));
    assert_eq!(<[i64; 0]>::deserialize(Deserializer::within(Value::Array(Array::new()), 0)), Err(Error::TooDeep));
    Ok(())
}

#[test]
fn many_levels_are_refused_and_let_go() -> Result<(), Error> {
    for value in [arrays(100_000), maps(100_000)] {
        assert!(from_value::<Rose>(value.clone()).is_err());
        assert_eq!(from_value::<Wire>(value.clone()).unwrap_err().to_string(), "nested too deep");
        from_value::<IgnoredAny>(value.clone())?;
        assert_eq!(to_value(&Wire(value)).unwrap_err().to_string(), "nested too deep");
    }
    Ok(())
}

#[test]
fn wires_have_as_many_levels() -> Result<(), Box<dyn std::error::Error>> {
    for (levels, fits) in [(LEVELS, true), (LEVELS + 1, false)] {
        assert_eq!(to_value(&Wire(arrays(levels))).is_ok(), fits);
        assert_eq!(to_value(&Wire(maps(levels))).is_ok(), fits);
        assert_eq!(from_value::<Wire>(arrays(levels)).is_ok(), fits);
        assert_eq!(serde_json::to_string(&Wire(arrays(levels))).is_ok(), fits);
    }
    assert!(serde_json::from_str::<Wire>(&"[".repeat(100_000)).is_err());
    Ok(())
}
