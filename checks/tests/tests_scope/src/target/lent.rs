//! Borrowed working values: what is written through them is written back to exactly that part.
use super::parts::{has_byte, propagated};
use super::*;

/// Overwrites a borrowed bit with true, and writes it back.
fn write_bit(rt: &impl Abort, alloc: Global, store: &mut Store, source: &mut Dynamic) -> bool {
    let mut target = Target::Bit {
        source,
        value: Dynamic::FALSE,
        bit: 5,
    };
    let is_lent = target.as_ref(store).as_bool(store) == Ok(false);
    *target.as_mut(store) = Dynamic::TRUE;
    let Target::Bit { source, value, bit } = target else {
        panic!(rt; "a bit becomes another target")
    };
    if bit != 5 || !source.is_int(store) {
        return false;
    }
    propagated(Target::Bit { source, value, bit }, alloc, store).is_ok() && is_lent
}

/// Overwrites a borrowed byte with 511, and writes it back.
fn write_byte(rt: &impl Abort, alloc: Global, store: &mut Store, source: &mut Dynamic) -> bool {
    let mut target = Target::BlobByte {
        source,
        value: Dynamic::TWO,
        index: 1,
    };
    let is_lent = target.as_ref(store).as_int(store) == Ok(2);
    *target.as_mut(store) = Dynamic::from_int(511);
    let Target::BlobByte {
        source,
        value,
        index,
    } = target
    else {
        panic!(rt; "a byte becomes another target")
    };
    if index != 1 || !has_byte(source, store, index) {
        return false;
    }
    let target = Target::BlobByte {
        source,
        value,
        index,
    };
    propagated(target, alloc, store).is_ok() && is_lent
}

/// Overwrites a borrowed character, and writes it back.
fn write_char(rt: &impl Abort, alloc: Global, store: &mut Store, source: &mut Dynamic) -> bool {
    let mut target = Target::StringChar {
        source,
        value: Dynamic::from_char('l'),
        index: 3,
    };
    let is_lent = target.as_ref(store).as_char(store) == Ok('l');
    *target.as_mut(store) = Dynamic::from_char('p');
    let Target::StringChar {
        source,
        value,
        index,
    } = target
    else {
        panic!(rt; "a character becomes another target")
    };
    if index != 3 || !source.is_string(store) {
        return false;
    }
    let target = Target::StringChar {
        source,
        value,
        index,
    };
    propagated(target, alloc, store).is_ok() && is_lent
}

/// Overwrites a borrowed whole value with 9.
fn write_value(rt: &impl Abort, store: &mut Store, value: &mut Dynamic) -> bool {
    let mut target = Target::RefMut(value);
    let is_lent = target.as_ref(store).as_int(store) == Ok(7);
    *target.as_mut(store) = Dynamic::from_int(9);
    let Target::RefMut(value) = target else {
        panic!(rt; "a reference becomes another target")
    };
    value.as_int(store) == Ok(9) && is_lent
}

#[test]
fn what_is_lent_of_a_reference_is_its_value(rt: HostRuntime) {
    let mut store = Store::new(rt.alloc());
    let mut value = seven();
    assert!(rt; write_value(&rt, &mut store, &mut value));
    assert!(rt; matches!(value.parts(), Union::Int(0, AccessMode::ReadWrite, 9)));
}

#[test]
fn what_is_lent_is_the_working_value_of_that_part(rt: HostRuntime) {
    let alloc = rt.alloc();
    let mut store = Store::new(alloc);
    let mut int = seven();
    assert!(rt; write_bit(&rt, alloc, &mut store, &mut int));
    assert!(rt; matches!(int.parts(), Union::Int(3, AccessMode::ReadOnly, 39)));
    let mut blob = bytes(alloc);
    assert!(rt; write_byte(&rt, alloc, &mut store, &mut blob) && is_bytes(&blob, &[1, 255]));
    let mut text = hello(alloc);
    assert!(rt; write_char(&rt, alloc, &mut store, &mut text) && is_text(&text, "helpo"));
}

#[test]
fn a_value_is_changed_by_a_function(rt: HostRuntime) {
    let mut store = Store::new(rt.alloc());
    let mut value = seven();
    let mut target = Target::RefMut(&mut value);
    let tag = target.with_mut(&mut store, |value| {
        value.set_tag(5);
        value.tag()
    });
    target.release(&mut store);
    assert!(rt; tag == 5 && value.tag() == 5);
}
