//! Maps of so many keys that their lists are split.
use rhai_value::{Dynamic, INT, Map, Union};
use std::alloc::{AllocError, Global};

/// Makes the key of a number below 1,000: a text followed by its three digits.
fn key_of(alloc: Global, before: &str, number: u32) -> Result<String, AllocError> {
    let mut key = String::from_str(alloc, before)?;
    for digit in [number / 100 % 10, number / 10 % 10, number % 10] {
        key.push(char::from_digit(digit, 10).unwrap_or('?'))?;
    }
    Ok(key)
}

/// The `place`th of 300 numbers in no order.
fn scrambled(place: u32) -> u32 {
    place.wrapping_mul(77) % 300
}

fn int_of(value: &Dynamic) -> INT {
    match value.parts() {
        Union::Int(_, _, value) => *value,
        _ => -1,
    }
}

/// Inserts the numbers below 300 at their keys, in no order. Returns whether each was new.
fn is_filled(map: &mut Map, alloc: Global, before: &str) -> Result<bool, AllocError> {
    for place in 0..300 {
        let number = scrambled(place);
        let key = key_of(alloc, before, number)?;
        match map.insert(key, Dynamic::from_int(INT::from(number))) {
            Ok(None) => {}
            Ok(Some(_)) | Err(_) => return Ok(false),
        }
    }
    Ok(true)
}

/// Whether the entries are those of every `step`th number, in their order.
fn has_each(map: &Map, alloc: Global, before: &str, step: u32) -> Result<bool, AllocError> {
    let mut number: u32 = 0;
    for (key, value) in map {
        if key != key_of(alloc, before, number)?.as_str() || int_of(value) != INT::from(number) {
            return Ok(false);
        }
        number = number.wrapping_add(step);
    }
    Ok(number >= 300 && number < 300_u32.wrapping_add(step))
}

/// Removes the numbers that aren't even, in no order. Returns whether each was there, and is gone.
fn is_thinned(map: &mut Map, alloc: Global, before: &str) -> Result<bool, AllocError> {
    for place in 0..300 {
        let number = scrambled(place);
        if number % 2 == 1 {
            let key = key_of(alloc, before, number)?;
            match map.remove(key.as_str()) {
                Some(value) => if int_of(&value) != INT::from(number) {
                    return Ok(false);
                },
                None => return Ok(false),
            }
            if map.contains_key(key.as_str()) {
                return Ok(false);
            }
        }
    }
    Ok(true)
}

/// Whether each even number is found, and can be overwritten.
fn is_found(map: &mut Map, alloc: Global, before: &str) -> Result<bool, AllocError> {
    for half in 0..150_u32 {
        let number = half.wrapping_mul(2);
        let key = key_of(alloc, before, number)?;
        match map.set(key.as_str(), Dynamic::from_int(INT::from(number))) {
            Ok(Some(old)) => if int_of(&old) != INT::from(number) {
                return Ok(false);
            },
            Ok(None) | Err(_) => return Ok(false),
        }
    }
    Ok(map.len() == 150)
}

/// Whether everything that is left can be removed in order.
fn is_emptied(map: &mut Map, alloc: Global, before: &str) -> Result<bool, AllocError> {
    for half in 0..150_u32 {
        let number = half.wrapping_mul(2);
        match map.pop_first(alloc)? {
            Some((key, value)) => if key != key_of(alloc, before, number)?
                || int_of(&value) != INT::from(number)
            {
                return Ok(false);
            },
            None => return Ok(false),
        }
    }
    Ok(map.is_empty())
}

/// Whether the copy of a map has its entries, and is independent.
fn is_copied(map: Map, alloc: Global, before: &str) -> Result<bool, AllocError> {
    let whole = Dynamic::from_map(map);
    let Union::Map(_, _, copy) = whole.copy(alloc)?.into_parts() else {
        return Ok(false);
    };
    let mut copy = copy;
    Ok(has_each(&copy, alloc, before, 2)? && is_emptied(&mut copy, alloc, before)?)
}

/// Tests all of this with keys that begin with a text.
fn keeps_many(alloc: Global, before: &str) -> Result<bool, AllocError> {
    let mut map = Map::new(alloc);
    if !is_filled(&mut map, alloc, before)? || !has_each(&map, alloc, before, 1)? {
        return Ok(false);
    }
    if !is_thinned(&mut map, alloc, before)? || !has_each(&map, alloc, before, 2)? {
        return Ok(false);
    }
    Ok(is_found(&mut map, alloc, before)? && is_copied(map, alloc, before)?)
}

#[test]
fn many_short_keys_are_kept(rt: HostRuntime) {
    assert!(rt; keeps_many(rt.alloc(), "").unwrap_or(false));
}

#[test]
fn many_keys_of_one_beginning_are_kept(rt: HostRuntime) {
    assert!(rt; keeps_many(rt.alloc(), "some_name_0000000").unwrap_or(false));
}

#[test]
fn many_long_keys_are_kept(rt: HostRuntime) {
    assert!(rt; keeps_many(rt.alloc(), "a_name_that_has_more_than_30_bytes_").unwrap_or(false));
}
