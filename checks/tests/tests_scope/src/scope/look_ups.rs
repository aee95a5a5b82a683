//! Look-ups by name while entries are pushed and dropped, in scopes of few entries and of many.
use super::walker::leave;
use rhai_scope::Scope;
use rhai_text::ImmutableString;
use rhai_value::{Dynamic, Store};
use std::alloc::{AllocError, Global};
use std::test::Fail;

const NAMES: usize = 1000;

/// A thousand names.
fn names(alloc: Global) -> Result<Vec<ImmutableString>, AllocError> {
    let mut names = Vec::with_capacity(alloc, NAMES)?;
    for i in 0..NAMES {
        let name = format!(in alloc; "n{i}")?;
        names.push(ImmutableString::from_str(alloc, &name)?)?;
    }
    Ok(names)
}

/// Whether `x` and `y` are found while they are pushed and dropped after `first` other entries.
fn are_found(scope: &mut Scope, store: &Store, first: usize) -> bool {
    let (second, third) = (first.wrapping_add(1), first.wrapping_add(2));
    if scope.push("x", 1i64).is_err()
        || scope.push("y", 2i64).is_err()
        || scope.push("x", 3i64).is_err()
        || !matches!(scope.remove::<i64>("x", store), Ok(Some(3)))
        || scope.search("x") != Some(first)
        || scope.push("x", 4i64).is_err()
        || scope.search("x") != Some(third)
        || !matches!(scope.remove::<i64>("y", store), Ok(Some(2)))
        || scope.search("x") != Some(second)
    {
        return false;
    }
    scope.rewind(second);
    scope.search("x") == Some(first) && scope.search("y").is_none()
}

/// Adds entries, each `step` names after the one before; `numbers` are those of the names of all
/// entries.
fn push_many(
    scope: &mut Scope,
    names: &[ImmutableString],
    numbers: &mut Vec<usize>,
    count: usize,
    step: usize,
) -> bool {
    for i in 0..count {
        let number = i.wrapping_mul(step) % NAMES;
        let Some(name) = names.get(number) else {
            return false;
        };
        if numbers.push(number).is_err()
            || scope.push_dynamic(name.as_str(), Dynamic::ONE).is_err()
        {
            return false;
        }
    }
    true
}

/// Returns the position of the newest entry whose name has this number, by a walk over all entries.
fn last_of(numbers: &[usize], number: usize) -> Option<usize> {
    numbers.iter().rposition(|own| *own == number)
}

/// Drops the newest entry with a name, if there is one.
fn drop_last(scope: &mut Scope, name: &ImmutableString) {
    match scope.search(name.as_str()) {
        Some(i) if i < scope.len() => drop(scope.remove_at(i)),
        Some(_) | None => {}
    }
}

/// Drops the newest entry of every seventh name.
fn drop_some(scope: &mut Scope, names: &[ImmutableString], numbers: &mut Vec<usize>) {
    for (number, name) in names.iter().enumerate() {
        if number % 7 == 0 {
            drop_last(scope, name);
            match last_of(numbers, number) {
                Some(place) if place < numbers.len() => {
                    numbers.remove(place);
                }
                Some(_) | None => {}
            }
        }
    }
}

/// Whether each name is found where the walk finds it.
fn agree(scope: &Scope, names: &[ImmutableString], numbers: &[usize]) -> bool {
    for (number, name) in names.iter().enumerate() {
        if scope.search(name.as_str()) != last_of(numbers, number) {
            return false;
        }
    }
    scope.len() == numbers.len()
}

/// Whether that holds after pushes, after removals and after the scope is rewound.
fn stay_found(
    scope: &mut Scope,
    names: &[ImmutableString],
    numbers: &mut Vec<usize>,
    count: usize,
    step: usize,
    left: usize,
) -> bool {
    if !push_many(scope, names, numbers, count, step) || !agree(scope, names, numbers) {
        return false;
    }
    drop_some(scope, names, numbers);
    if !agree(scope, names, numbers) {
        return false;
    }
    scope.rewind(left);
    numbers.truncate(left);
    agree(scope, names, numbers)
}

/// Two names with the same first four and last four bytes, so that they have the same bit in the
/// filter of the index.
const FIRST: &str = "size_of_first_item";

const SECOND: &str = "size_of_second_item";

/// Whether the two names are at these positions, and a name that was never pushed isn't found.
fn stand(scope: &Scope, first: Option<usize>, second: Option<usize>) -> bool {
    scope.search(FIRST) == first
        && scope.search(SECOND) == second
        && !scope.contains("size_of_no_item")
        && !scope.contains("never")
        && !scope.contains("")
}

/// Whether they are distinguished while one of them, and then both, come before forty entries.
fn are_told_apart(scope: &mut Scope, names: &[ImmutableString], numbers: &mut Vec<usize>) -> bool {
    if scope.push(FIRST, 1i64).is_err()
        || !push_many(scope, names, numbers, 40, 1)
        || !stand(scope, Some(0), None)
        || scope.push(SECOND, 2i64).is_err()
        || !push_many(scope, names, numbers, 40, 1)
        || !stand(scope, Some(0), Some(41))
    {
        return false;
    }
    scope.rewind(41);
    stand(scope, Some(0), None)
}

/// Whether they are distinguished after the first of them is taken out, the other one is pushed,
/// and all entries are dropped.
fn stay_apart(scope: &mut Scope, store: &Store) -> bool {
    if !matches!(scope.remove::<i64>(FIRST, store), Ok(Some(1)))
        || !stand(scope, None, None)
        || scope.push(SECOND, 3i64).is_err()
        || !stand(scope, None, Some(40))
    {
        return false;
    }
    scope.clear();
    stand(scope, None, None)
}

/// Takes out the newest entries, one by one.
fn leave_some(scope: &mut Scope, count: usize) {
    for _ in 0..count {
        drop(leave(scope));
    }
}

#[test]
fn names_are_found_once_later_entries_were_taken_out(rt: HostRuntime) -> Result<(), Fail> {
    let alloc = rt.alloc();
    let names = names(alloc)?;
    let mut scope = Scope::new(alloc);
    let mut numbers = Vec::new(alloc);
    assert!(rt; push_many(&mut scope, &names, &mut numbers, 100, 450));
    leave_some(&mut scope, 30);
    numbers.truncate(70);
    assert!(rt; agree(&scope, &names, &numbers));
    leave_some(&mut scope, 60);
    numbers.truncate(10);
    assert!(rt; agree(&scope, &names, &numbers));
    Ok(())
}

#[test]
fn names_that_are_not_there_are_not_found(rt: HostRuntime) -> Result<(), Fail> {
    let alloc = rt.alloc();
    let store = Store::new(alloc);
    let names = names(alloc)?;
    let mut scope = Scope::new(alloc);
    let mut numbers = Vec::new(alloc);
    assert!(rt; are_told_apart(&mut scope, &names, &mut numbers));
    assert!(rt; stay_apart(&mut scope, &store));
    assert!(rt; are_told_apart(&mut scope, &names, &mut numbers));
    Ok(())
}

#[test]
fn names_are_found_behind_few_and_many_entries(rt: HostRuntime) -> Result<(), Fail> {
    let alloc = rt.alloc();
    let store = Store::new(alloc);
    let names = names(alloc)?;
    let mut scope = Scope::new(alloc);
    let mut numbers = Vec::new(alloc);
    assert!(rt; are_found(&mut scope, &store, 0));
    assert!(rt; push_many(&mut scope, &names, &mut numbers, 100, 1));
    assert!(rt; are_found(&mut scope, &store, 101));
    Ok(())
}

#[test]
fn ten_thousand_entries_are_found_as_by_a_walk(rt: HostRuntime) -> Result<(), Fail> {
    let alloc = rt.alloc();
    let names = names(alloc)?;
    let mut scope = Scope::new(alloc);
    let mut numbers = Vec::new(alloc);
    assert!(rt; stay_found(&mut scope, &names, &mut numbers, 10_000, 1, 9_500));
    assert!(rt; stay_found(&mut scope, &names, &mut numbers, 700, 13, 20));
    assert!(rt; stay_found(&mut scope, &names, &mut numbers, 100, 7, 0));
    Ok(())
}
