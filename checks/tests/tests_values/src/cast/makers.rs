//! Values that are made from Rust collections.
use rhai_cast::DynamicCast;
use rhai_value::{Dynamic, INT, Store};
use rhai_variant::Variant;
use std::alloc::{AllocError, Global};
use std::collections::{BTreeMap, BTreeSet, HashMap, HashSet};
use std::test::Fail;

/// Whether a value was made, and is the array of 1, 2, 3.
fn is_numbers(alloc: Global, store: &Store, made: Result<Dynamic, AllocError>) -> bool {
    let Ok(value) = made else {
        return false;
    };
    if value.type_name(store) != "array" {
        return false;
    }
    match value.into_typed_array::<INT>(alloc, store) {
        Ok(numbers) => numbers.as_slice() == [1, 2, 3].as_slice(),
        Err(_) => false,
    }
}

#[test]
fn arrays_are_made_of_items(rt: HostRuntime) -> Result<(), Fail> {
    let alloc = rt.alloc();
    let store = Store::new(alloc);
    let first = vec![in alloc; 1i64, 2, 3]?;
    let second = vec![in alloc; 1i64, 2, 3]?;
    let slice = [1i64, 2, 3];
    assert!(rt; is_numbers(alloc, &store, Dynamic::from_vec(alloc, first)));
    assert!(rt; is_numbers(alloc, &store, Dynamic::from_slice(alloc, &slice)));
    assert!(rt; is_numbers(alloc, &store, Dynamic::from_iter(alloc, second)));
    Ok(())
}

/// Whether a value was made, has the type name of a map, and has one key, "a", with a value of this
/// type.
fn has_key<T: Variant>(store: &Store, made: Result<Dynamic, AllocError>) -> bool {
    let Ok(value) = made else {
        return false;
    };
    let Ok(map) = value.as_map_ref(store) else {
        return false;
    };
    match map.get("a") {
        Some(item) => map.len() == 1 && item.is::<T>(store) && value.type_name(store) == "map",
        None => false,
    }
}

#[test]
fn maps_are_made_of_entries(rt: HostRuntime) -> Result<(), Fail> {
    let alloc = rt.alloc();
    let store = Store::new(alloc);
    let mut hashed: HashMap<String, INT> = HashMap::new(alloc);
    hashed.insert(String::from_str(alloc, "a")?, 1)?;
    assert!(rt; has_key::<INT>(&store, Dynamic::from_hash_map(alloc, hashed)));
    let mut ordered: BTreeMap<String, bool> = BTreeMap::new(alloc);
    ordered.insert(String::from_str(alloc, "a")?, true)?;
    assert!(rt; has_key::<bool>(&store, Dynamic::from_btree_map(alloc, ordered)));
    Ok(())
}

#[test]
fn sets_are_made_maps_of_units(rt: HostRuntime) -> Result<(), Fail> {
    let alloc = rt.alloc();
    let store = Store::new(alloc);
    let mut hashed: HashSet<String> = HashSet::new(alloc);
    hashed.insert(String::from_str(alloc, "a")?)?;
    assert!(rt; has_key::<()>(&store, Dynamic::from_hash_set(alloc, hashed)));
    let mut ordered: BTreeSet<String> = BTreeSet::new(alloc);
    ordered.insert(String::from_str(alloc, "a")?)?;
    assert!(rt; has_key::<()>(&store, Dynamic::from_btree_set(alloc, ordered)));
    Ok(())
}
