//! Names of other worlds, and names that were forgotten.
mod common;

use rhai_world::{Command, Error, Limits, Name, Operator, Place, Type, World};
use std::collections::HashSet;

fn world() -> World {
    World::new(Limits::default()).unwrap()
}

/// Each call that takes a name refuses this one, and does nothing.
fn is_refused(w: &mut World, own: Name, name: Name) {
    fn not<T>(found: Result<T, Error>) {
        assert_eq!(found.map(|_| ()), Err(Error::NoName));
    }
    let (before, place) = (w.hand_len(), Place::Entry(name));
    not(w.name_text(name));
    not(w.contains(name));
    not(w.push(name, 0));
    not(w.make_fn(name, 0));
    not(w.get_value(name, Type::Int));
    not(w.set_alias(name, "alias"));
    not(w.make_map(&[own, name]));
    not(w.extend(&[name, own]));
    not(w.extend_flagged(&[(own, true), (name, false)]));
    not(w.mark(place));
    not(w.write_bit(place, 0, 0));
    not(w.assign(Operator::PlusAssign, place, 0));
    not(w.apply(&Command::Get { name }));
    not(w.apply(&Command::Extend { names: vec![name] }));
    not(w.apply(&Command::WriteByte { place, index: 0, j: 0 }));
    not(w.line_of(&Command::Get { name }));
    not(w.forget_name(name));
    assert_eq!((w.hand_len(), w.contains(own)), (before, Ok(false)));
}

#[test]
fn of_another_world() {
    let (mut one, mut other) = (world(), world());
    let (x, y) = (one.name("x").unwrap(), other.name("x").unwrap());
    assert_ne!(x, y);
    is_refused(&mut one, x, y);
    is_refused(&mut other, y, x);
    drop(other);
    let mut third = world();
    let z = third.name("x").unwrap();
    is_refused(&mut third, z, y);
    is_refused(&mut third, z, x);
}

#[test]
fn forgotten() {
    let mut w = world();
    let (x, y) = (w.name("x").unwrap(), w.name("y").unwrap());
    w.forget_name(x).unwrap();
    is_refused(&mut w, y, x);
    // (its number is reused, and so is its text)
    let again = w.name("x").unwrap();
    is_refused(&mut w, again, x);
    w.forget_name(again).unwrap();
    is_refused(&mut w, y, again);
    w.forget_name(y).unwrap();
    let other = w.name("z").unwrap();
    for name in [x, y, again] {
        is_refused(&mut w, other, name);
    }
    assert_eq!(w.name_text(other).as_deref(), Ok("z"));
}

/// A name is two words; its first is the number, and a million names share a few numbers.
#[test]
fn a_million_take_little_room() {
    let mut w = world();
    let mut kept = w.name("first").unwrap();
    let mut numbers = HashSet::new();
    for _ in 0..common::levels() {
        let next = w.name("next").unwrap();
        w.forget_name(kept).unwrap();
        numbers.insert(format!("{next:?}").split(", ").next().unwrap().to_owned());
        kept = next;
    }
    assert_eq!(numbers.len(), 2, "{:?}", numbers.iter().take(5).collect::<Vec<_>>());
    assert_eq!(w.name_text(kept).as_deref(), Ok("next"));
}

#[test]
fn a_name_is_a_key() {
    let mut w = world();
    let names: HashSet<Name> = (0..10).map(|_| w.name("x").unwrap()).collect();
    assert_eq!(names.len(), 10);
}
