//! Texts and hashes; copies, holders added or removed, contents moved out.

ghost use Rattle.std.specs.Prelude.{◌≡◌, ◌+◌, ◌-◌, ◌^◌, min, pos, is_some, if◌then◌else◌};
ghost use Rattle.rhai_value.specs.Parts.{with_int};
ghost use Rattle.rhai_value.specs.Scan.{nodes_kept, nodes_unit};
ghost use Rattle.rhai_value.specs.Tree.{fresh, unit, cell_of};
ghost use Rattle.std.proofs.Common.{refl};

use crate::desk::Desk;
use crate::dump::{add_digits, add_items_dump};
use rhai_show::{debug_text, display_text, hashed, is_hashable};
use rhai_text::ImmutableString;
use rhai_value::{AccessMode, Dynamic, INT, IntoError, Part, Visitor};
use std::alloc::AllocError;

/// Sets each int to 0.
#[derive(Drop)]
struct Zeros {
    visits: u64,
}

impl Visitor for Zeros {
    ghost visited = { λ v t. (record v { visits = min (v.visits + 1) (2 ^ 64 - 1) }, with_int (pos 0) t) };

    ghost adds_no_nodes = { λ v t. nodes_kept _ _ t refl };

    fn visit(&mut self, value: &mut Dynamic) {
        self.visits = self.visits.saturating_add(1);
        if let Some(int) = INT::own_mut(value) {
            *int = 0;
        }
    }
}

/// Replaces each holder with unit.
#[derive(Drop)]
struct Unshared {
    visits: u64,
}

impl Visitor for Unshared {
    ghost visited = { λ v t. (record v { visits = min (v.visits + 1) (2 ^ 64 - 1) }, if is_some (cell_of t) then fresh unit else t) };

    ghost adds_no_nodes = { λ v t. nodes_unit _ t };

    fn visit(&mut self, value: &mut Dynamic) {
        self.visits = self.visits.saturating_add(1);
        if value.is_shared() {
            *value = Dynamic::UNIT;
        }
    }
}

/// Whether two values have the same hash.
fn same_hash(desk: &mut Desk, x: &Dynamic, y: &Dynamic) -> Result<(), AllocError> {
    let first = hashed(desk.alloc, x, &desk.store)?;
    let second = hashed(desk.alloc, y, &desk.store)?;
    match (first, second) {
        (Some(first), Some(second)) => desk.answers.say_flag("same_hash", first == second),
        (Some(_), None) => desk.answers.say("same_hash", "none"),
        (None, Some(_)) => desk.answers.say("same_hash", "none"),
        (None, None) => desk.answers.say("same_hash", "none"),
    }
}

/// Writes the hash bytes of a value.
fn say_hash(desk: &mut Desk, key: &str, value: &Dynamic) -> Result<(), AllocError> {
    match hashed(desk.alloc, value, &desk.store)? {
        Some(hashed) => {
            desk.answers.key(key)?;
            add_digits(&mut desk.answers.text, hashed.bytes())?;
            desk.answers.end()
        }
        None => desk.answers.say(key, "none"),
    }
}

pub fn show(desk: &mut Desk, x: &Dynamic, y: &Dynamic) -> Result<(), AllocError> {
    let text = display_text(desk.alloc, x, &desk.store)?;
    desk.answers.say_quoted("display", text.as_str())?;
    let text = debug_text(desk.alloc, x, &desk.store)?;
    desk.answers.say_quoted("debug", text.as_str())?;
    let flag = is_hashable(desk.alloc, x, &desk.store)?;
    desk.answers.say_flag("hashable", flag)?;
    let name = x.type_name(&desk.store);
    desk.answers.say("type_name", name)?;
    say_hash(desk, "hash", x)?;
    say_hash(desk, "hash y", y)?;
    same_hash(desk, x, y)
}

fn say_refused(desk: &mut Desk, error: IntoError) -> Result<(), AllocError> {
    match error {
        IntoError::Mismatch(name) => desk.answers.say("into_not", name),
        IntoError::Memory(_) => Err(AllocError),
    }
}

fn into_call(desk: &mut Desk, x: Dynamic, way: u8) -> Result<(), AllocError> {
    match way {
        0 => match x.into_string(desk.alloc, &desk.store) {
            Ok(text) => desk.answers.say_quoted("into", text.as_str()),
            Err(error) => say_refused(desk, error),
        },
        1 => match x.into_immutable_string(desk.alloc, &desk.store) {
            Ok(text) => desk.answers.say_quoted("into", text.as_str()),
            Err(error) => say_refused(desk, error),
        },
        2 => match x.into_array(desk.alloc, &desk.store) {
            Ok(items) => {
                desk.answers.key("into")?;
                add_items_dump(&mut desk.answers.text, &desk.store, items.as_slice())?;
                desk.answers.end()
            }
            Err(error) => say_refused(desk, error),
        },
        _ => match x.into_blob(desk.alloc, &desk.store) {
            Ok(bytes) => desk
                .answers
                .say_value("into", &desk.store, &Dynamic::from_blob(bytes)),
            Err(error) => say_refused(desk, error),
        },
    }
}

fn handed_back(made: Result<Dynamic, Dynamic>) -> Result<Dynamic, AllocError> {
    match made {
        Ok(value) => Ok(value),
        Err(_) => Err(AllocError),
    }
}

fn made(desk: &mut Desk, x: &mut Dynamic, way: u8) -> Result<(), AllocError> {
    match way {
        4 => {
            let copy = x.copy(desk.alloc)?;
            desk.answers.say_kept("copy", &desk.store, copy)
        }
        5 => {
            let flat = x.flatten_clone(desk.alloc, &desk.store)?;
            desk.answers.say_kept("flatten_clone", &desk.store, flat)
        }
        6 => {
            let flat = handed_back(x.take().flatten(desk.alloc, &desk.store))?;
            desk.answers.say_kept("flatten", &desk.store, flat)
        }
        7 => {
            let holder = handed_back(x.take().into_shared(&mut desk.store))?;
            desk.answers.say_kept("into_shared", &desk.store, holder)
        }
        8 => desk
            .answers
            .say_kept("into_read_only", &desk.store, x.take().into_read_only()),
        _ => desk.answers.say_kept("take", &desk.store, x.take()),
    }
}

pub fn move_call(desk: &mut Desk, x: &mut Dynamic) -> Result<(), AllocError> {
    let way = desk.recipe.byte();
    match way {
        0 | 1 | 2 | 3 => into_call(desk, x.take(), way),
        10 => {
            x.set_access_mode(AccessMode::ReadOnly);
            Ok(())
        }
        11 => {
            x.set_access_mode(AccessMode::ReadWrite);
            Ok(())
        }
        12 => {
            let tag = desk.recipe.tag();
            x.set_tag(tag);
            Ok(())
        }
        13 => {
            let mut zeros = Zeros { visits: 0 };
            x.deep_scan(&mut zeros);
            desk.answers
                .say_number("visits", zeros.visits.cast_signed())
        }
        14 => {
            let mut unshared = Unshared { visits: 0 };
            x.deep_scan(&mut unshared);
            desk.answers
                .say_number("visits", unshared.visits.cast_signed())
        }
        _ => made(desk, x, way),
    }
}
