//! Scopes.

use crate::given::variables;
use rhai_scope::Scope;
use rhai_text::ImmutableString;
use rhai_value::{AccessMode, Dynamic, Store};
use std::alloc::{AllocError, Global};

/// A scope with an int of each name.
fn scope_of(alloc: Global, names: &[ImmutableString]) -> Result<Scope, AllocError> {
    let mut scope = Scope::new(alloc);
    let mut i = 0_i64;
    for name in names {
        scope.push_dynamic(name.as_str(), Dynamic::from_int(i))?;
        i = i.wrapping_add(1);
    }
    Ok(scope)
}

#[inline(never)]
pub(crate) fn push_rewind(alloc: Global, n: usize) -> Result<u64, AllocError> {
    let names = variables(alloc, 10)?;
    let mut scope = Scope::new(alloc);
    let mut sum = 0_u64;
    for i in 0..n {
        for name in &names {
            scope.push_dynamic(name.as_str(), Dynamic::from_int((i as u64).cast_signed()))?;
        }
        sum = sum.wrapping_add(scope.len() as u64);
        scope.rewind(0);
    }
    Ok(sum)
}

/// As `push`, with names that are texts already.
#[inline(never)]
pub(crate) fn push_entries(alloc: Global, n: usize) -> Result<u64, AllocError> {
    let names = variables(alloc, 10)?;
    let mut scope = Scope::new(alloc);
    let mut sum = 0_u64;
    for i in 0..n {
        for name in &names {
            let value = Dynamic::from_int((i as u64).cast_signed());
            match scope.push_entry(name.copy(alloc)?, AccessMode::ReadWrite, value) {
                Ok(()) => {}
                Err(_) => return Err(AllocError),
            }
        }
        sum = sum.wrapping_add(scope.len() as u64);
        scope.rewind(0);
    }
    Ok(sum)
}

#[inline(never)]
pub(crate) fn push_pop(alloc: Global, n: usize) -> Result<u64, AllocError> {
    let names = variables(alloc, 10)?;
    let mut scope = Scope::new(alloc);
    let mut sum = 0_u64;
    for i in 0..n {
        for name in &names {
            scope.push_dynamic(name.as_str(), Dynamic::from_int((i as u64).cast_signed()))?;
        }
        for _ in 0..10 {
            if !scope.is_empty() {
                scope.pop();
                sum = sum.wrapping_add(1);
            }
        }
    }
    Ok(sum)
}

/// Gets the entry at a position and the one beside it in turn.
#[inline(never)]
pub(crate) fn get(alloc: Global, n: usize, count: u32, place: usize) -> Result<u64, AllocError> {
    let store = Store::new(alloc);
    let names = variables(alloc, count)?;
    let scope = scope_of(alloc, &names)?;
    let mut sum = 0_u64;
    for i in 0..n {
        if let Some(name) = names.get(place ^ (i & 1)) {
            if let Some(value) = scope.get(name.as_str()) {
                if let Ok(int) = value.as_int(&store) {
                    sum = sum.rotate_left(1) ^ int.cast_unsigned();
                }
            }
        }
    }
    Ok(sum)
}

#[inline(never)]
pub(crate) fn contains_miss(alloc: Global, n: usize) -> Result<u64, AllocError> {
    let names = variables(alloc, 108)?;
    let mut scope = scope_of(alloc, &names)?;
    scope.rewind(100);
    let mut sum = 0_u64;
    for i in 0..n {
        if let Some(name) = names.get(100_usize.wrapping_add(i & 7)) {
            if !scope.contains(name.as_str()) {
                sum = sum.wrapping_add(1);
            }
        }
    }
    Ok(sum)
}

#[inline(never)]
pub(crate) fn set_or_push(alloc: Global, n: usize) -> Result<u64, AllocError> {
    let store = Store::new(alloc);
    let names = variables(alloc, 10)?;
    let mut scope = scope_of(alloc, &names)?;
    let mut sum = 0_u64;
    for i in 0..n {
        if let Some(name) = names.get(i & 7) {
            scope.set_or_push(name.as_str(), (i as u64).cast_signed())?;
        }
    }
    for (_, _, value) in scope.iter_raw(&store) {
        sum = sum.wrapping_add(value.as_int(&store).unwrap_or(0).cast_unsigned());
    }
    Ok(sum)
}

#[inline(never)]
pub(crate) fn clone_visible(alloc: Global, n: usize) -> Result<u64, AllocError> {
    let names = variables(alloc, 100)?;
    let scope = scope_of(alloc, &names)?;
    let mut sum = 0_u64;
    for _ in 0..n {
        sum = sum.wrapping_add(scope.clone_visible()?.len() as u64);
    }
    Ok(sum)
}

#[inline(never)]
pub(crate) fn iterate(alloc: Global, n: usize) -> Result<u64, AllocError> {
    let store = Store::new(alloc);
    let names = variables(alloc, 100)?;
    let scope = scope_of(alloc, &names)?;
    let mut sum = 0_u64;
    for _ in 0..n {
        for item in scope.iter(&store) {
            let (name, is_constant, value) = item?;
            sum = sum.wrapping_add(value.as_int(&store).unwrap_or(0).cast_unsigned());
            if !is_constant {
                sum = sum.rotate_left(1).wrapping_add(name.len() as u64);
            }
        }
    }
    Ok(sum)
}

#[inline(never)]
pub(crate) fn iterate_raw(alloc: Global, n: usize) -> Result<u64, AllocError> {
    let store = Store::new(alloc);
    let names = variables(alloc, 100)?;
    let scope = scope_of(alloc, &names)?;
    let mut sum = 0_u64;
    for _ in 0..n {
        for (name, is_constant, value) in scope.iter_raw(&store) {
            sum = sum.wrapping_add(value.as_int(&store).unwrap_or(0).cast_unsigned());
            if !is_constant {
                sum = sum.rotate_left(1).wrapping_add(name.len() as u64);
            }
        }
    }
    Ok(sum)
}
