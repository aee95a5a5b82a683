//! Sequences of calls on a scope.
ghost use Rattle.std.specs.Prelude.{◌≡◌, None, false, IfSome};
ghost use Rattle.std.specs.Str.{chars};
ghost use Rattle.rhai_scope.specs.Lookup.{value_named};
ghost use Rattle.rhai_value.specs.Tree.{cell_of};

use crate::casts::{say_found, say_made};
use crate::desk::Desk;
use crate::dump::{add_dump, add_quoted};
use rhai_scope::Scope;
use rhai_text::ImmutableString;
use rhai_value::{Array, Blob, Dynamic, ExclusiveRange, FnPtr, InclusiveRange, Map};
use rhai_variant::Variant;
use std::alloc::AllocError;

/// Whether the newest entry with a name is a holder.
fn is_holder(scope: &Scope, name: &str) -> bool
    ensures { result ≡ false → IfSome (value_named (chars name.now) scope.now) (λ t. cell_of t ≡ None) }
{
    match scope.get(name) {
        Some(value) => value.is_shared(),
        None => false,
    }
}

/// Writes a scope's value of a name as a type, by reference.
fn by_reference<T: Variant>(desk: &mut Desk, scope: &Scope, name: &str) -> Result<(), AllocError> {
    if is_holder(scope, name) {
        return desk.answers.say("get_value_ref", "shared");
    }
    match scope.get_value_ref::<T>(name) {
        Some(x) => {
            let x = x.duplicate(desk.alloc)?;
            say_made(desk, "get_value_ref", x)
        }
        None => desk.answers.say("get_value_ref", "none"),
    }
}

/// The same by mutable reference.
fn by_place<T: Variant>(desk: &mut Desk, scope: &mut Scope, name: &str) -> Result<(), AllocError> {
    if is_holder(scope, name) {
        return desk.answers.say("get_value_mut", "shared");
    }
    match scope.get_value_mut::<T>(name) {
        Some(x) => {
            let x = x.duplicate(desk.alloc)?;
            say_made(desk, "get_value_mut", x)
        }
        None => desk.answers.say("get_value_mut", "none"),
    }
}

/// Writes a scope's value of a name as a type, through one of the four calls.
fn typed<T: Variant>(
    desk: &mut Desk,
    scope: &mut Scope,
    name: &str,
    way: u8,
) -> Result<(), AllocError> {
    match way {
        0 => {
            let found = scope.get_value::<T>(name, &desk.store)?;
            say_found(desk, "get_value", found)
        }
        1 => by_reference::<T>(desk, scope, name),
        2 => by_place::<T>(desk, scope, name),
        _ => {
            let found = scope.remove::<T>(name, &desk.store)?;
            say_found(desk, "remove", found)
        }
    }
}

fn typed_call(desk: &mut Desk, scope: &mut Scope, name: &str, way: u8) -> Result<(), AllocError> {
    match desk.recipe.byte() {
        0 => typed::<()>(desk, scope, name, way),
        1 => typed::<bool>(desk, scope, name, way),
        2 => typed::<char>(desk, scope, name, way),
        3 => typed::<i64>(desk, scope, name, way),
        4 => typed::<u8>(desk, scope, name, way),
        5 => typed::<u16>(desk, scope, name, way),
        6 => typed::<u32>(desk, scope, name, way),
        7 => typed::<u64>(desk, scope, name, way),
        8 => typed::<u128>(desk, scope, name, way),
        9 => typed::<i8>(desk, scope, name, way),
        10 => typed::<i16>(desk, scope, name, way),
        11 => typed::<i32>(desk, scope, name, way),
        12 => typed::<i128>(desk, scope, name, way),
        13 => typed::<String>(desk, scope, name, way),
        14 => typed::<ImmutableString>(desk, scope, name, way),
        15 => typed::<Array>(desk, scope, name, way),
        16 => typed::<Blob>(desk, scope, name, way),
        17 => typed::<Map>(desk, scope, name, way),
        18 => typed::<FnPtr>(desk, scope, name, way),
        19 => typed::<ExclusiveRange>(desk, scope, name, way),
        20 => typed::<InclusiveRange>(desk, scope, name, way),
        _ => typed::<Dynamic>(desk, scope, name, way),
    }
}

fn look_up(desk: &mut Desk, scope: &Scope, name: &str) -> Result<(), AllocError> {
    desk.answers.say_flag("contains", scope.contains(name))?;
    match scope.search(name) {
        Some(place) => {
            desk.answers.say_size("search", place)?;
        }
        None => desk.answers.say("search", "none")?,
    }
    match scope.is_constant(name) {
        Some(flag) => desk.answers.say_flag("is_constant", flag)?,
        None => desk.answers.say("is_constant", "none")?,
    }
    match scope.get(name) {
        Some(value) => desk.answers.say_value("get", &desk.store, value),
        None => desk.answers.say("get", "none"),
    }
}

fn extend(desk: &mut Desk, scope: &mut Scope) -> Result<(), AllocError> {
    let count = desk.recipe.count();
    let mut items = Vec::new(desk.alloc);
    for _ in 0..count {
        let name = ImmutableString::from_str(desk.alloc, desk.recipe.text())?;
        let value = desk.value()?;
        items.push((name, value))?;
    }
    scope.extend(items)
}

fn extend_flagged(desk: &mut Desk, scope: &mut Scope) -> Result<(), AllocError> {
    let count = desk.recipe.count();
    let mut items = Vec::new(desk.alloc);
    for _ in 0..count {
        let name = ImmutableString::from_str(desk.alloc, desk.recipe.text())?;
        let flag = desk.recipe.byte() == 1;
        let value = desk.value()?;
        items.push((name, flag, value))?;
    }
    scope.extend_flagged(items)
}

fn push(desk: &mut Desk, scope: &mut Scope, op: u8, name: &str) -> Result<(), AllocError> {
    let value = desk.value()?;
    match op {
        0 => scope.push(name, value),
        1 => scope.push_constant(name, value),
        2 => scope.push_dynamic(name, value),
        3 => scope.push_constant_dynamic(name, value),
        4 => {
            if scope.is_constant(name) == Some(true) {
                return desk.answers.say("set_value", "constant");
            }
            scope.set_value(name, value)
        }
        5 => scope.set_or_push(name, value),
        _ => match scope.get_mut(name) {
            Some(place) => {
                *place = value;
                Ok(())
            }
            None => desk.answers.say("get_mut", "none"),
        },
    }
}

fn change(desk: &mut Desk, scope: &mut Scope, op: u8) -> Result<(), AllocError> {
    match op {
        7 => {
            if scope.is_empty() {
                return desk.answers.say("pop", "empty");
            }
            scope.pop();
            Ok(())
        }
        8 => {
            let size = desk.recipe.count();
            scope.rewind(size);
            Ok(())
        }
        9 => {
            scope.clear();
            Ok(())
        }
        16 => {
            *scope = scope.clone_visible()?;
            Ok(())
        }
        17 => {
            *scope = scope.copy()?;
            Ok(())
        }
        18 => extend(desk, scope),
        _ => extend_flagged(desk, scope),
    }
}

fn step(desk: &mut Desk, scope: &mut Scope) -> Result<(), AllocError> {
    let op = desk.recipe.byte();
    let name = desk.recipe.text();
    match op {
        0..=6 => push(desk, scope, op, name),
        10 => look_up(desk, scope, name),
        11 => typed_call(desk, scope, name, 0),
        12 => typed_call(desk, scope, name, 1),
        13 => typed_call(desk, scope, name, 2),
        14 => typed_call(desk, scope, name, 3),
        15 => {
            let alias = desk.recipe.text();
            scope.set_alias(name, alias)
        }
        _ => change(desk, scope, op),
    }
}

fn say_entries(desk: &mut Desk, scope: &Scope) -> Result<(), AllocError> {
    for (name, value, aliases) in scope {
        desk.answers.key("entry")?;
        add_quoted(&mut desk.answers.text, name)?;
        desk.answers.text.push(' ')?;
        add_dump(&mut desk.answers.text, &desk.store, value)?;
        for alias in aliases {
            desk.answers.text.push(' ')?;
            add_quoted(&mut desk.answers.text, alias.as_str())?;
        }
        desk.answers.end()?;
    }
    Ok(())
}

fn say_iter(desk: &mut Desk, scope: &Scope) -> Result<(), AllocError> {
    for item in scope.iter(&desk.store) {
        let (name, flag, value) = item?;
        desk.answers
            .text
            .push_str(if flag { "iter=const " } else { "iter=" })?;
        add_quoted(&mut desk.answers.text, name)?;
        desk.answers.text.push(' ')?;
        add_dump(&mut desk.answers.text, &desk.store, &value)?;
        desk.answers.text.push('\n')?;
    }
    for (name, flag, value) in scope.iter_raw(&desk.store) {
        desk.answers
            .text
            .push_str(if flag { "raw=const " } else { "raw=" })?;
        add_quoted(&mut desk.answers.text, name)?;
        desk.answers.text.push(' ')?;
        add_dump(&mut desk.answers.text, &desk.store, value)?;
        desk.answers.text.push('\n')?;
    }
    Ok(())
}

/// Writes the entries as they are moved out.
fn say_moved(desk: &mut Desk, scope: Scope) -> Result<(), AllocError> {
    for (name, value, aliases) in scope {
        desk.answers.key("moved")?;
        add_quoted(&mut desk.answers.text, name.as_str())?;
        desk.answers.text.push(' ')?;
        add_dump(&mut desk.answers.text, &desk.store, &value)?;
        for alias in aliases.as_slice() {
            desk.answers.text.push(' ')?;
            add_quoted(&mut desk.answers.text, alias.as_str())?;
        }
        desk.answers.end()?;
    }
    Ok(())
}

pub fn scope_script(desk: &mut Desk) -> Result<(), AllocError> {
    let mut scope = Scope::new(desk.alloc);
    let count = desk.recipe.count();
    for _ in 0..count {
        step(desk, &mut scope)?;
    }
    desk.answers.say_size("len", scope.len())?;
    desk.answers.say_flag("empty", scope.is_empty())?;
    say_entries(desk, &scope)?;
    say_iter(desk, &scope)?;
    let shown = scope.shown(&desk.store)?;
    desk.answers
        .say_quoted("shown", shown.into_text().as_str())?;
    say_moved(desk, scope)
}
