//! Entries by their positions.
use super::walker::{exchange, leave, name_of, resolve};
use super::{is_int, prints};
use rhai_scope::Scope;
use rhai_value::{Dynamic, INT, Store};
use std::test::Fail;

/// Fills a scope with an x, a constant y, and another x.
fn fill(scope: &mut Scope) -> bool {
    scope.push("x", 1i64).is_ok()
        && scope.push_constant("y", 2i64).is_ok()
        && scope.push("x", 3i64).is_ok()
}

/// Whether the int at a position is this one, and is a constant or not.
fn is_at(scope: &Scope, store: &Store, i: usize, wanted: INT, is_constant: bool) -> bool {
    if i >= scope.len() {
        return false;
    }
    matches!(scope.at(i).as_int(store), Ok(n) if n == wanted)
        && scope.is_constant_at(i) == is_constant
}

#[test]
fn entries_are_read_by_position(rt: HostRuntime) {
    let mut scope = Scope::new(rt.alloc());
    let store = Store::new(rt.alloc());
    assert!(rt; fill(&mut scope));
    assert!(rt; is_at(&scope, &store, 0, 1, false));
    assert!(rt; is_at(&scope, &store, 1, 2, true));
    assert!(rt; is_at(&scope, &store, 2, 3, false));
}

/// Overwrites the newest entry with a name with an int, also a constant.
fn overwrite(scope: &mut Scope, name: &str, value: INT) -> bool {
    let Some(i) = scope.search(name) else {
        return false;
    };
    if i >= scope.len() {
        return false;
    }
    *scope.at_mut(i) = Dynamic::from_int(value);
    true
}

#[test]
fn a_constant_is_written_by_position(rt: HostRuntime) {
    let mut scope = Scope::new(rt.alloc());
    let store = Store::new(rt.alloc());
    assert!(rt; fill(&mut scope));
    assert!(rt; overwrite(&mut scope, "y", 7));
    assert!(rt; is_int(&scope, &store, "y", 7));
    assert!(rt; !overwrite(&mut scope, "z", 7));
}

/// Returns the int at a position, whose entry is taken out.
fn taken(scope: &mut Scope, store: &Store, i: usize) -> Option<INT> {
    if i >= scope.len() {
        return None;
    }
    scope.remove_at(i).as_int(store).ok()
}

#[test]
fn an_entry_is_taken_out_by_position(rt: HostRuntime) -> Result<(), Fail> {
    let alloc = rt.alloc();
    let mut scope = Scope::new(alloc);
    let store = Store::new(alloc);
    assert!(rt; fill(&mut scope));
    assert!(rt; taken(&mut scope, &store, 0) == Some(1));
    assert!(rt; scope.search("x") == Some(1));
    assert!(rt; taken(&mut scope, &store, 1) == Some(3));
    assert!(rt; scope.search("x").is_none());
    assert!(rt; prints(alloc, &scope, &store, "[1] const y = 2\n"));
    Ok(())
}

/// Whether the newest x, which is looked up once, is named, read and written by its position.
fn is_walked(scope: &mut Scope, store: &Store, had: INT, has: INT) -> bool {
    let Some(i) = resolve(scope, "x") else {
        return false;
    };
    name_of(scope, i) == "x" && exchange(scope, i, Dynamic::from_int(has)).as_int(store) == Ok(had)
}

/// Whether the newest entry is this one, with this alias, and can be taken out.
fn is_left(scope: &mut Scope, store: &Store, name: &str, wanted: INT, alias: &str) -> bool {
    let Some((own_name, value, aliases)) = leave(scope) else {
        return false;
    };
    own_name.as_str() == name
        && value.as_int(store) == Ok(wanted)
        && matches!(aliases.first(), Some(own) if own.as_str() == alias)
}

#[test]
fn an_entry_is_walked_to_and_left(rt: HostRuntime) -> Result<(), Fail> {
    let alloc = rt.alloc();
    let mut scope = Scope::new(alloc);
    let store = Store::new(alloc);
    assert!(rt; fill(&mut scope));
    assert!(rt; is_walked(&mut scope, &store, 3, 7));
    assert!(rt; is_walked(&mut scope, &store, 7, 8));
    assert!(rt; resolve(&scope, "z").is_none());
    assert!(rt; scope.set_alias("x", "ex").is_ok() && scope.set_alias("y", "why").is_ok());
    assert!(rt; is_left(&mut scope, &store, "x", 8, "ex"));
    assert!(rt; is_left(&mut scope, &store, "y", 2, "why"));
    assert!(rt; prints(alloc, &scope, &store, "[1] x = 1\n"));
    assert!(rt; leave(&mut scope).is_some() && leave(&mut scope).is_none());
    Ok(())
}
