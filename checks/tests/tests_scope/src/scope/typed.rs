//! Entries by Rust types.
use super::{is_int, prints};
use rhai_scope::Scope;
use rhai_text::ImmutableString;
use rhai_value::{AccessMode, Dynamic, Store};
use std::alloc::Global;
use std::test::Fail;

/// Whether values can be pushed by their types, and a constant is hidden by a new entry.
fn is_filled(scope: &mut Scope) -> bool {
    scope.push("x", 42i64).is_ok()
        && scope.push_constant("y", 1i64).is_ok()
        && scope.push_dynamic("z", Dynamic::TRUE).is_ok()
        && scope.push_constant_dynamic("z", Dynamic::FALSE).is_ok()
        && scope.set_or_push("x", 43i64).is_ok()
        && scope.set_or_push("y", 2i64).is_ok()
        && scope.len() == 5
        && scope.is_constant("z") == Some(true)
        && scope.is_constant("y") == Some(false)
}

/// Whether values can be taken out by their types, and an entry is also removed if its value can't
/// be cast.
fn is_emptied(scope: &mut Scope, store: &Store) -> bool {
    matches!(scope.get_value::<i64>("x", store), Ok(Some(43)))
        && matches!(scope.get_value::<bool>("x", store), Ok(None))
        && matches!(scope.remove::<i64>("y", store), Ok(Some(2)))
        && matches!(scope.get_value::<i64>("y", store), Ok(Some(1)))
        && matches!(scope.remove::<String>("x", store), Ok(None))
        && scope.len() == 3
        && matches!(scope.remove::<i64>("x", store), Ok(None))
        && scope.len() == 3
}

#[test]
fn values_go_in_and_out_by_their_types(rt: HostRuntime) {
    let alloc = rt.alloc();
    let mut scope = Scope::new(alloc);
    assert!(rt; is_filled(&mut scope));
    assert!(rt; is_emptied(&mut scope, &Store::new(alloc)));
}

/// Overwrites a borrowed value with 5.
fn write_five(scope: &mut Scope, name: &str) -> bool {
    match scope.get_mut(name) {
        Some(value) => {
            *value = Dynamic::from_int(5);
            true
        }
        None => false,
    }
}

/// Whether a variable can be borrowed mutably, but neither a constant nor a missing one.
fn is_lent(scope: &mut Scope, store: &Store, name: ImmutableString) -> bool {
    scope.push("x", 1i64).is_ok()
        && write_five(scope, "x")
        && is_int(scope, store, "x", 5)
        && scope
            .push_entry(name, AccessMode::ReadOnly, Dynamic::TEN)
            .is_ok()
        && !write_five(scope, "x")
        && !write_five(scope, "z")
        && is_int(scope, store, "x", 10)
}

#[test]
fn a_variable_is_lent_for_writing(rt: HostRuntime) -> Result<(), Fail> {
    let alloc = rt.alloc();
    let mut scope = Scope::with_capacity(alloc, 2)?;
    let name = ImmutableString::from_str(alloc, "x")?;
    assert!(rt; is_lent(&mut scope, &Store::new(alloc), name));
    Ok(())
}
