//! Iterators over entries.
use rhai_scope::Scope;
use rhai_value::{Dynamic, Store};

/// Adds a variable of 1 with an alias, and a holder of a constant 2, to a scope.
fn fill(scope: &mut Scope, store: &mut Store) -> bool {
    let Ok(holder) = Dynamic::TWO.into_read_only().into_shared(store) else {
        return false;
    };
    scope.push("a", 1i64).is_ok()
        && scope.set_alias("a", "c").is_ok()
        && scope.push("b", holder).is_ok()
}

/// Whether entries come in order, first to last.
fn is_in_order(scope: &Scope) -> bool {
    let mut entries = scope.into_iter();
    entries.len() == 2
        && matches!(entries.next(), Some((name, _, aliases)) if name == "a" && aliases.len() == 1)
        && entries.size_hint() == (1, Some(1))
        && matches!(entries.next(), Some((name, _, aliases)) if name == "b" && aliases.is_empty())
        && entries.next().is_none()
}

/// Whether values come last to first, with the modes of held values.
fn is_in_turn(scope: &Scope, store: &Store) -> bool {
    let mut raw = scope.iter_raw(store);
    raw.len() == 2
        && matches!(raw.next(), Some((name, true, value)) if name == "b" && value.is_shared())
        && matches!(raw.next(), Some((name, false, _)) if name == "a")
        && raw.next().is_none()
}

/// Whether the next value is without its holder.
fn is_flat(scope: &Scope, store: &Store) -> bool {
    let mut values = scope.iter(store);
    let _first = values.next();
    match values.next() {
        Some(Ok((name, _, value))) => name == "b" && !value.is_shared(),
        Some(Err(_)) => false,
        None => false,
    }
}

/// Whether a scope is taken apart in order.
fn comes_apart(scope: Scope, store: &Store) -> bool {
    let mut entries = scope.into_iter();
    let is_first = match entries.next() {
        Some((name, value, aliases)) => name.as_str() == "a"
            && aliases.len() == 1
            && value.as_int(store) == Ok(1),
        None => false,
    };
    let is_second = match entries.next() {
        Some((name, value, aliases)) => name.as_str() == "b"
            && aliases.is_empty()
            && value.is_shared(),
        None => false,
    };
    is_first && is_second && entries.next().is_none()
}

/// Whether no entry has an alias.
fn has_no_alias(scope: &Scope) -> bool {
    for (_, _, aliases) in scope {
        if !aliases.is_empty() {
            return false;
        }
    }
    true
}

/// Whether an alias is dropped with its entry, and another entry with the name comes without one.
fn drops_alias(scope: &mut Scope) -> bool {
    let is_filled = scope.push("x", 1i64).is_ok()
        && scope.push("y", 2i64).is_ok()
        && scope.push("x", 3i64).is_ok()
        && scope.set_alias("x", "z").is_ok();
    scope.rewind(2);
    is_filled && scope.push("x", 4i64).is_ok() && scope.len() == 3 && has_no_alias(scope)
}

#[test]
fn aliases_go_with_their_entries(rt: HostRuntime) {
    let mut scope = Scope::new(rt.alloc());
    assert!(rt; drops_alias(&mut scope));
}

#[test]
fn entries_come_one_after_another(rt: HostRuntime) {
    let mut store = Store::new(rt.alloc());
    let mut scope = Scope::new(rt.alloc());
    assert!(rt; fill(&mut scope, &mut store));
    assert!(rt; is_in_order(&scope) && is_in_turn(&scope, &store) && is_flat(&scope, &store));
    assert!(rt; comes_apart(scope, &store));
}
