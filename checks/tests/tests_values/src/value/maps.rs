//! Maps: each call on small maps, also on keys that were removed.
use rhai_value::{Dynamic, INT, Map, Union};
use std::alloc::Global;

fn int_of(value: &Dynamic) -> INT {
    match value.parts() {
        Union::Int(_, _, value) => *value,
        _ => 99,
    }
}

/// Inserts an int at a key, and returns the int that was there, or -1; 99 if the allocation fails.
fn put(map: &mut Map, alloc: Global, key: &str, value: INT) -> INT {
    let Ok(key) = String::from_str(alloc, key) else {
        return 99;
    };
    match map.insert(key, Dynamic::from_int(value)) {
        Ok(Some(old)) => int_of(&old),
        Ok(None) => -1,
        Err(_) => 99,
    }
}

/// Removes a key, and returns the int that was there, or -1.
fn take(map: &mut Map, key: &str) -> INT {
    match map.remove(key) {
        Some(old) => int_of(&old),
        None => -1,
    }
}

/// Removes the first entry, and returns whether it was this one.
fn begins_with(map: &mut Map, alloc: Global, key: &str, value: INT) -> bool {
    match map.pop_first(alloc) {
        Ok(Some((found, item))) => found.as_str() == key && int_of(&item) == value,
        Ok(None) | Err(_) => false,
    }
}

/// A map of five keys.
fn sample(alloc: Global) -> Map {
    let mut map = Map::new(alloc);
    let _ = put(&mut map, alloc, "b", 2);
    let _ = put(&mut map, alloc, "", 0);
    let _ = put(&mut map, alloc, "é", 4);
    let _ = put(&mut map, alloc, "a", 1);
    let _ = put(&mut map, alloc, "ba", 3);
    map
}

/// Whether a map has these entries, in this order.
fn has_entries(map: &Map, wanted: &[(&str, INT)]) -> bool {
    let mut entries = map.iter();
    for (key, value) in wanted {
        match entries.next() {
            Some((found, item)) => if found != *key || int_of(item) != *value {
                return false;
            },
            None => return false,
        }
    }
    entries.next().is_none() && map.len() == wanted.len()
}

/// Whether the last key and the last value are these, and there are this many entries.
fn ends_with(map: &Map, key: &str, value: INT, count: usize) -> bool {
    let is_last = match map.values().last() {
        Some(last) => int_of(last) == value,
        None => false,
    };
    is_last
        && map.keys().last() == Some(key)
        && map.iter().size_hint() == (count, Some(count))
        && map.contains_key(key)
}

#[test]
fn keys_rise(rt: HostRuntime) {
    let map = sample(rt.alloc());
    assert!(rt; has_entries(&map, &[("", 0), ("a", 1), ("b", 2), ("ba", 3), ("é", 4)]));
    assert!(rt; ends_with(&map, "é", 4, 5));
}

/// Overwrites an existing value with an int.
fn write(map: &mut Map, key: &str, value: INT) -> bool {
    match map.get_mut(key) {
        Some(place) => {
            *place = Dynamic::from_int(value);
            true
        }
        None => false,
    }
}

/// Whether the int at a key is this one.
fn has(map: &Map, key: &str, wanted: INT) -> bool {
    match map.get(key) {
        Some(value) => int_of(value) == wanted,
        None => false,
    }
}

/// Whether values are overwritten if they exist.
fn is_written_over(map: &mut Map, alloc: Global) -> bool {
    put(map, alloc, "b", 20) == 2
        && write(map, "a", 10)
        && !write(map, "bb", 10)
        && has(map, "a", 10)
        && !has(map, "bb", 10)
        && has_entries(map, &[("", 0), ("a", 10), ("b", 20), ("ba", 3), ("é", 4)])
}

#[test]
fn keys_are_written_over(rt: HostRuntime) {
    assert!(rt; is_written_over(&mut sample(rt.alloc()), rt.alloc()));
}

/// Whether keys can be removed, and inserted again among others.
fn is_put_again(map: &mut Map, alloc: Global) -> bool {
    take(map, "b") == 2
        && take(map, "b") == -1
        && take(map, "é") == 4
        && begins_with(map, alloc, "", 0)
        && has_entries(map, &[("a", 1), ("ba", 3)])
        && put(map, alloc, "z", 9) == -1
        && put(map, alloc, "c", 5) == -1
        && put(map, alloc, "b", 7) == -1
        && put(map, alloc, "y", 8) == -1
        && has_entries(
            map,
            &[("a", 1), ("b", 7), ("ba", 3), ("c", 5), ("y", 8), ("z", 9)],
        )
}

/// Whether nothing is left of a map that was cleared, and it can be filled again.
fn is_cleared(map: &mut Map, alloc: Global) -> bool {
    map.clear();
    map.is_empty()
        && !begins_with(map, alloc, "a", 1)
        && put(map, alloc, "x", 1) == -1
        && begins_with(map, alloc, "x", 1)
        && map.is_empty()
}

#[test]
fn keys_that_left_are_put_again(rt: HostRuntime) {
    let mut map = sample(rt.alloc());
    assert!(rt; is_put_again(&mut map, rt.alloc()));
    assert!(rt; is_cleared(&mut map, rt.alloc()));
}
