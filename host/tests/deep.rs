//! Values of a million levels, on the main thread's stack: 8 MB.
mod common;

use common::{levels, on_stack};
use rhai_world::{Array, Limits, Map, Value, World};
#[cfg(feature = "faults")]
use rhai_world::{Error, Refusal};
use std::hash::{BuildHasher, RandomState};

const STACK: usize = 8 << 20;

fn array(inside: Value) -> Value {
    Value::Array(vec![inside].into())
}

fn map(inside: Value) -> Value {
    let mut map = Map::new();
    map.insert("k", inside);
    Value::Map(map)
}

fn function(inside: Value) -> Value {
    Value::FnPtr("f".into(), vec![inside].into())
}

/// Makes a level with leaves on both sides.
fn sides(inside: Value) -> Value {
    Value::Array(vec![Value::Unit, inside, Value::from("right")].into())
}

fn nested(level: fn(Value) -> Value) -> Value {
    (0..levels()).fold(Value::Int(7), |inside, _| level(inside))
}

fn goes_and_comes_back(level: fn(Value) -> Value) {
    let value = nested(level);
    let mut world = World::new(Limits::default()).unwrap();
    world.put(&value).unwrap();
    let found = world.value(0).unwrap().unwrap();
    assert!(found == value);
    world.drop().unwrap();
    let copy = found.clone();
    drop(found);
    assert!(copy == value);
    let state = RandomState::new();
    assert_eq!(state.hash_one(&copy), state.hash_one(&value));
    assert!(copy != level(Value::Unit));
    assert!(format!("{copy:?}").len() < 10_000);
}

#[test]
fn values_go_and_come_back() {
    for level in [array, map, function, sides] {
        on_stack(STACK, move || goes_and_comes_back(level));
    }
}

/// All kinds of levels, each with further nested values.
#[test]
fn mixed_values_are_dropped() {
    on_stack(STACK, || {
        let mut value = Value::Unit;
        for i in 0..levels() {
            let beside = array(map(Value::Int(1)));
            value = match i % 4 {
                0 => Value::Array(vec![beside, value].into()),
                1 => Value::Array(vec![value, beside].into()),
                2 => map(Value::Array(vec![beside.clone(), value, beside].into())),
                _ => function(value),
            };
        }
        let Value::FnPtr(_, inside) = function(value) else { panic!("a function was made") };
        let mut items = inside.into_vec();
        items.push(Value::Unit);
        drop(Array::from(items));
    });
}

/// If an allocation fails in the middle of a value, the hand is unchanged.
#[test]
#[cfg(feature = "faults")]
fn what_is_refused_in_the_middle_leaves_the_hand() {
    on_stack(STACK, || {
        let value = nested(sides);
        let mut world = World::new(Limits::default()).unwrap();
        world.put_int(1).unwrap();
        for nth in [0, 1, 10, levels() as u64 / 2] {
            let (put, asked) = rhai_world::refuse(nth, true, || world.put(&value));
            assert_eq!((put, world.hand_len()), (Err(Error::OutOfMemory), 1), "{nth} of {asked}");
        }
        assert_eq!((world.as_int(0), world.as_int(1)), (Ok(1), Err(Error::Refused(Refusal::NoValue))));
    });
}
