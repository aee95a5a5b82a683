//! Casts, for the 22 types.

use crate::desk::Desk;
use rhai_cast::{DynamicCast, is_castable};
use rhai_text::ImmutableString;
use rhai_value::{Array, Blob, Dynamic, ExclusiveRange, FnPtr, InclusiveRange, IntoError, Map};
use rhai_variant::{CastError, Variant};
use std::alloc::AllocError;

/// Writes the value that is made from a Rust value.
pub fn say_made<T: Variant>(desk: &mut Desk, key: &str, x: T) -> Result<(), AllocError> {
    match Dynamic::of(desk.alloc, x) {
        Ok(value) => desk.answers.say_value(key, &desk.store, &value),
        Err(_) => Err(AllocError),
    }
}

pub fn say_found<T: Variant>(desk: &mut Desk, key: &str, x: Option<T>) -> Result<(), AllocError> {
    match x {
        Some(x) => say_made(desk, key, x),
        None => desk.answers.say(key, "none"),
    }
}

fn duplicated<T: Variant>(desk: &Desk, x: Option<&T>) -> Result<Option<T>, AllocError> {
    match x {
        Some(x) => Ok(Some(x.duplicate(desk.alloc)?)),
        None => Ok(None),
    }
}

/// Borrows the value itself mutably as the type, and overwrites it with the second value cast to
/// the type.
fn written_over<T: Variant>(
    desk: &mut Desk,
    x: &mut Dynamic,
    y: &Dynamic,
) -> Result<(), AllocError> {
    let found = match x.downcast_mut::<T>() {
        None => None,
        Some(place) => {
            let before = place.duplicate(desk.alloc)?;
            if is_castable::<T>(y, &desk.store) {
                *place = y.clone_cast::<T>(desk.alloc, &desk.store)?;
            }
            Some(before)
        }
    };
    say_found(desk, "downcast_mut", found)?;
    desk.answers.say_value("written", &desk.store, x)
}

fn looked_into<T: Variant>(desk: &mut Desk, x: &mut Dynamic) -> Result<(), AllocError> {
    let flag = x.is::<T>(&desk.store);
    desk.answers.say_flag("is", flag)?;
    let flag = x.type_id(&desk.store) == T::KIND;
    desk.answers.say_flag("type_id", flag)?;
    let found = duplicated(desk, x.read_lock::<T>(&desk.store))?;
    say_found(desk, "read_lock", found)?;
    let found = duplicated(desk, x.downcast_ref::<T>())?;
    say_found(desk, "downcast_ref", found)?;
    let found = match x.write_lock::<T>(&mut desk.store) {
        Some(x) => Some(x.duplicate(desk.alloc)?),
        None => None,
    };
    say_found(desk, "write_lock", found)?;
    if is_castable::<T>(x, &desk.store) {
        let made = x.clone_cast::<T>(desk.alloc, &desk.store)?;
        say_made(desk, "clone_cast", made)
    } else {
        desk.answers.say("clone_cast", "none")
    }
}

fn typed_array<T: Variant>(desk: &mut Desk, x: Dynamic) -> Result<(), AllocError> {
    match x.into_typed_array::<T>(desk.alloc, &desk.store) {
        Ok(items) => {
            let made = Dynamic::from_vec(desk.alloc, items)?;
            desk.answers.say_value("typed", &desk.store, &made)
        }
        Err(IntoError::Mismatch(name)) => desk.answers.say("typed", name),
        Err(IntoError::Memory(_)) => Err(AllocError),
    }
}

fn cast_result<T: Variant>(desk: &mut Desk, x: Dynamic) -> Result<(), AllocError> {
    match x.try_cast_result::<T>(desk.alloc, &desk.store) {
        Ok(made) => say_made(desk, "cast_result", made),
        Err(CastError::Mismatch(back)) => desk.answers.say_value("cast_back", &desk.store, &back),
        Err(CastError::Memory(_)) => Err(AllocError),
    }
}

fn cast_as<T: Variant>(
    desk: &mut Desk,
    x: &mut Dynamic,
    y: &Dynamic,
    way: u8,
) -> Result<(), AllocError> {
    looked_into::<T>(desk, x)?;
    match way {
        4 => written_over::<T>(desk, x, y),
        0 => {
            let found = x.take().try_cast::<T>(desk.alloc, &desk.store)?;
            say_found(desk, "try_cast", found)
        }
        1 => cast_result::<T>(desk, x.take()),
        2 => {
            if is_castable::<T>(x, &desk.store) {
                let made = x.take().cast::<T>(desk.alloc, &desk.store)?;
                say_made(desk, "cast", made)
            } else {
                desk.answers.say("cast", "none")
            }
        }
        _ => typed_array::<T>(desk, x.take()),
    }
}

pub fn cast_call(desk: &mut Desk, x: &mut Dynamic, y: &Dynamic) -> Result<(), AllocError> {
    let kind = desk.recipe.byte();
    let way = desk.recipe.byte();
    match kind {
        0 => cast_as::<()>(desk, x, y, way),
        1 => cast_as::<bool>(desk, x, y, way),
        2 => cast_as::<char>(desk, x, y, way),
        3 => cast_as::<i64>(desk, x, y, way),
        4 => cast_as::<u8>(desk, x, y, way),
        5 => cast_as::<u16>(desk, x, y, way),
        6 => cast_as::<u32>(desk, x, y, way),
        7 => cast_as::<u64>(desk, x, y, way),
        8 => cast_as::<u128>(desk, x, y, way),
        9 => cast_as::<i8>(desk, x, y, way),
        10 => cast_as::<i16>(desk, x, y, way),
        11 => cast_as::<i32>(desk, x, y, way),
        12 => cast_as::<i128>(desk, x, y, way),
        13 => cast_as::<String>(desk, x, y, way),
        14 => cast_as::<ImmutableString>(desk, x, y, way),
        15 => cast_as::<Array>(desk, x, y, way),
        16 => cast_as::<Blob>(desk, x, y, way),
        17 => cast_as::<Map>(desk, x, y, way),
        18 => cast_as::<FnPtr>(desk, x, y, way),
        19 => cast_as::<ExclusiveRange>(desk, x, y, way),
        20 => cast_as::<InclusiveRange>(desk, x, y, way),
        _ => cast_as::<Dynamic>(desk, x, y, way),
    }
}
