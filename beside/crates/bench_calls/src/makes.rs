//! Arrays and maps made from Rust's collections, for the 22 types.

use crate::desk::Desk;
use crate::dump::{add_dump, add_quoted};
use rhai_cast::{DynamicCast, is_castable};
use rhai_text::ImmutableString;
use rhai_value::{Array, Blob, Dynamic, ExclusiveRange, FnPtr, InclusiveRange, Map};
use rhai_variant::Variant;
use std::alloc::AllocError;
use std::collections::{BTreeMap, BTreeSet, HashMap, HashSet};

/// The items of an array that can be cast to the type.
fn items_as<T: Variant>(desk: &Desk, x: &Dynamic) -> Result<Vec<T>, AllocError> {
    let mut made = Vec::new(desk.alloc);
    if let Ok(items) = x.as_array_ref(&desk.store) {
        for item in items.as_slice() {
            if is_castable::<T>(item, &desk.store) {
                made.push(item.clone_cast::<T>(desk.alloc, &desk.store)?)?;
            }
        }
    }
    Ok(made)
}

/// The entries of a map whose values can be cast to the type, in a hash map.
fn table_as<T: Variant>(desk: &Desk, x: &Dynamic) -> Result<HashMap<String, T>, AllocError> {
    let mut made = HashMap::new(desk.alloc);
    if let Ok(map) = x.as_map_ref(&desk.store) {
        for (key, value) in map.iter() {
            if is_castable::<T>(value, &desk.store) {
                let value = value.clone_cast::<T>(desk.alloc, &desk.store)?;
                if made
                    .insert(String::from_str(desk.alloc, key)?, value)
                    .is_err()
                {
                    return Err(AllocError);
                }
            }
        }
    }
    Ok(made)
}

/// As `table_as`, in an ordered map.
fn ordered_as<T: Variant>(desk: &Desk, x: &Dynamic) -> Result<BTreeMap<String, T>, AllocError> {
    let mut made = BTreeMap::new(desk.alloc);
    if let Ok(map) = x.as_map_ref(&desk.store) {
        for (key, value) in map.iter() {
            if is_castable::<T>(value, &desk.store) {
                let value = value.clone_cast::<T>(desk.alloc, &desk.store)?;
                if made
                    .insert(String::from_str(desk.alloc, key)?, value)
                    .is_err()
                {
                    return Err(AllocError);
                }
            }
        }
    }
    Ok(made)
}

/// The keys of a map, in a set.
fn keys(desk: &Desk, x: &Dynamic) -> Result<HashSet<String>, AllocError> {
    let mut made = HashSet::new(desk.alloc);
    if let Ok(map) = x.as_map_ref(&desk.store) {
        for (key, _value) in map.iter() {
            if made.insert(String::from_str(desk.alloc, key)?).is_err() {
                return Err(AllocError);
            }
        }
    }
    Ok(made)
}

/// As `keys`, in an ordered set.
fn ordered_keys(desk: &Desk, x: &Dynamic) -> Result<BTreeSet<String>, AllocError> {
    let mut made = BTreeSet::new(desk.alloc);
    if let Ok(map) = x.as_map_ref(&desk.store) {
        for (key, _value) in map.iter() {
            if made.insert(String::from_str(desk.alloc, key)?).is_err() {
                return Err(AllocError);
            }
        }
    }
    Ok(made)
}

fn made_as<T: Variant>(desk: &Desk, x: &Dynamic, way: u8) -> Result<Dynamic, AllocError> {
    match way {
        0 => Dynamic::from_slice(desk.alloc, items_as::<T>(desk, x)?.as_slice()),
        1 => Dynamic::from_iter(desk.alloc, items_as::<T>(desk, x)?),
        2 => Dynamic::from_hash_map(desk.alloc, table_as::<T>(desk, x)?),
        3 => Dynamic::from_btree_map(desk.alloc, ordered_as::<T>(desk, x)?),
        4 => Dynamic::from_hash_set(desk.alloc, keys(desk, x)?),
        _ => Dynamic::from_btree_set(desk.alloc, ordered_keys(desk, x)?),
    }
}

/// Writes the entries of a map as they are moved out.
fn say_moved(desk: &mut Desk, x: &Dynamic) -> Result<(), AllocError> {
    if !is_castable::<Map>(x, &desk.store) {
        return desk.answers.say("moved", "none");
    }
    let map = x.clone_cast::<Map>(desk.alloc, &desk.store)?;
    for (key, value) in map {
        desk.answers.key("moved")?;
        add_quoted(&mut desk.answers.text, key.as_str())?;
        desk.answers.text.push(' ')?;
        add_dump(&mut desk.answers.text, &desk.store, &value)?;
        desk.answers.end()?;
    }
    Ok(())
}

/// Makes an array from an array's items, or a map from a map's entries or keys, through a Rust
/// collection.
pub fn make_call(desk: &mut Desk, x: &Dynamic) -> Result<(), AllocError> {
    let kind = desk.recipe.byte();
    let way = desk.recipe.byte();
    if way == 6 {
        return say_moved(desk, x);
    }
    let made = match kind {
        0 => made_as::<()>(desk, x, way),
        1 => made_as::<bool>(desk, x, way),
        2 => made_as::<char>(desk, x, way),
        3 => made_as::<i64>(desk, x, way),
        4 => made_as::<u8>(desk, x, way),
        5 => made_as::<u16>(desk, x, way),
        6 => made_as::<u32>(desk, x, way),
        7 => made_as::<u64>(desk, x, way),
        8 => made_as::<u128>(desk, x, way),
        9 => made_as::<i8>(desk, x, way),
        10 => made_as::<i16>(desk, x, way),
        11 => made_as::<i32>(desk, x, way),
        12 => made_as::<i128>(desk, x, way),
        13 => made_as::<String>(desk, x, way),
        14 => made_as::<ImmutableString>(desk, x, way),
        15 => made_as::<Array>(desk, x, way),
        16 => made_as::<Blob>(desk, x, way),
        17 => made_as::<Map>(desk, x, way),
        18 => made_as::<FnPtr>(desk, x, way),
        19 => made_as::<ExclusiveRange>(desk, x, way),
        20 => made_as::<InclusiveRange>(desk, x, way),
        _ => made_as::<Dynamic>(desk, x, way),
    };
    desk.answers.say_kept("made", &desk.store, made?)
}
