//! Writes through a value: to the first content, or to the held value.

use crate::desk::Desk;
use rhai_text::ImmutableString;
use rhai_value::Dynamic;
use std::alloc::AllocError;

fn write_text(desk: &mut Desk, x: &mut Dynamic) -> Result<(), AllocError> {
    let text = ImmutableString::from_str(desk.alloc, desk.recipe.text())?;
    match x.as_immutable_string_mut(&mut desk.store) {
        Ok(place) => {
            *place = text;
            Ok(())
        }
        Err(name) => desk.answers.say("not", name),
    }
}

fn write_array(desk: &mut Desk, x: &mut Dynamic, y: Dynamic) -> Result<(), AllocError> {
    match x.as_array_mut(&mut desk.store) {
        Ok(items) => {
            items.push(y)?;
            Ok(())
        }
        Err(name) => desk.answers.say("not", name),
    }
}

fn write_blob(desk: &mut Desk, x: &mut Dynamic) -> Result<(), AllocError> {
    match x.as_blob_mut(&mut desk.store) {
        Ok(bytes) => {
            bytes.push(7)?;
            Ok(())
        }
        Err(name) => desk.answers.say("not", name),
    }
}

fn write_map(desk: &mut Desk, x: &mut Dynamic, y: Dynamic) -> Result<(), AllocError> {
    let key = String::from_str(desk.alloc, desk.recipe.text())?;
    match x.as_map_mut(&mut desk.store) {
        Ok(map) => match map.insert(key, y) {
            Ok(_) => Ok(()),
            Err(_) => Err(AllocError),
        },
        Err(name) => desk.answers.say("not", name),
    }
}

/// Writes through a value in one of the ways.
pub fn write_call(desk: &mut Desk, x: &mut Dynamic, y: &mut Dynamic) -> Result<(), AllocError> {
    match desk.recipe.byte() {
        0 => match x.write_whole(&mut desk.store) {
            Some(place) => {
                *place = y.take();
                Ok(())
            }
            None => desk.answers.say("not", "whole"),
        },
        1 => write_text(desk, x),
        2 => write_array(desk, x, y.take()),
        3 => write_blob(desk, x),
        4 => write_map(desk, x, y.take()),
        _ => match x.read_whole(&desk.store) {
            Some(content) => {
                let copy = content.copy(desk.alloc)?;
                desk.answers.say_value("whole", &desk.store, &copy)
            }
            None => desk.answers.say_quoted("whole", "none"),
        },
    }
}
