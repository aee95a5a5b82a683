//! Scopes.

use rhai::*;

#[inline(never)]
pub fn variables(count: u32) -> Vec<ImmutableString> {
    (0..count).map(|i| ImmutableString::from(format!("var{i:04}"))).collect()
}
#[inline(never)]
pub fn scope_of(names: &[ImmutableString]) -> Scope<'static> {
    let mut scope = Scope::new();
    let mut i = 0_i64;
    for name in names {
        scope.push_dynamic(name.as_str(), Dynamic::from_int(i));
        i = i.wrapping_add(1);
    }
    scope
}
#[inline(never)]
pub fn push_rewind(n: usize) -> u64 {
    let names = variables(10);
    let mut scope = Scope::new();
    let mut sum = 0_u64;
    for i in 0..n {
        for name in &names {
            scope.push_dynamic(name.as_str(), Dynamic::from_int(i as INT));
        }
        sum = sum.wrapping_add(scope.len() as u64);
        scope.rewind(0);
    }
    sum
}
/// The same with names that are texts already.
#[inline(never)]
pub fn push_entries(n: usize) -> u64 {
    let names = variables(10);
    let mut scope = Scope::new();
    let mut sum = 0_u64;
    for i in 0..n {
        for name in &names {
            hooks::push_entry(&mut scope, name.clone(), Dynamic::from_int(i as INT));
        }
        sum = sum.wrapping_add(scope.len() as u64);
        scope.rewind(0);
    }
    sum
}
#[inline(never)]
pub fn push_pop(n: usize) -> u64 {
    let names = variables(10);
    let mut scope = Scope::new();
    let mut sum = 0_u64;
    for i in 0..n {
        for name in &names {
            scope.push_dynamic(name.as_str(), Dynamic::from_int(i as INT));
        }
        for _ in 0..10 {
            if !scope.is_empty() {
                scope.pop();
                sum = sum.wrapping_add(1);
            }
        }
    }
    sum
}
#[inline(never)]
pub fn get_entry(n: usize, count: u32, place: usize) -> u64 {
    let names = variables(count);
    let scope = scope_of(&names);
    let mut sum = 0_u64;
    for i in 0..n {
        if let Some(name) = names.get(place ^ (i & 1)) {
            if let Some(value) = scope.get(name.as_str()) {
                if let Ok(int) = value.as_int() {
                    sum = sum.rotate_left(1) ^ (int as u64);
                }
            }
        }
    }
    sum
}
#[inline(never)]
pub fn contains_miss(n: usize) -> u64 {
    let names = variables(108);
    let mut scope = scope_of(&names);
    scope.rewind(100);
    let mut sum = 0_u64;
    for i in 0..n {
        if let Some(name) = names.get(100 + (i & 7)) {
            if !scope.contains(name.as_str()) {
                sum = sum.wrapping_add(1);
            }
        }
    }
    sum
}
#[inline(never)]
pub fn set_or_push(n: usize) -> u64 {
    let names = variables(10);
    let mut scope = scope_of(&names);
    let mut sum = 0_u64;
    for i in 0..n {
        if let Some(name) = names.get(i & 7) {
            scope.set_or_push(name.as_str(), i as INT);
        }
    }
    for (_, _, value) in scope.iter_raw() {
        sum = sum.wrapping_add(value.as_int().unwrap_or(0) as u64);
    }
    sum
}
#[inline(never)]
pub fn clone_visible(n: usize) -> u64 {
    let scope = scope_of(&variables(100));
    let mut sum = 0_u64;
    for _ in 0..n {
        sum = sum.wrapping_add(scope.clone_visible().len() as u64);
    }
    sum
}
#[inline(never)]
pub fn iterate_scope(n: usize) -> u64 {
    let scope = scope_of(&variables(100));
    let mut sum = 0_u64;
    for _ in 0..n {
        for (name, is_constant, value) in scope.iter() {
            sum = sum.wrapping_add(value.as_int().unwrap_or(0) as u64);
            if !is_constant {
                sum = sum.rotate_left(1).wrapping_add(name.len() as u64);
            }
        }
    }
    sum
}
#[inline(never)]
pub fn iterate_raw(n: usize) -> u64 {
    let scope = scope_of(&variables(100));
    let mut sum = 0_u64;
    for _ in 0..n {
        for (name, is_constant, value) in scope.iter_raw() {
            sum = sum.wrapping_add(value.as_int().unwrap_or(0) as u64);
            if !is_constant {
                sum = sum.rotate_left(1).wrapping_add(name.len() as u64);
            }
        }
    }
    sum
}

// ---- hashes, scans, casts, targets
