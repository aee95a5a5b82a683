//! Calls that don't change the value.

use crate::desk::Desk;
use crate::dump::{add_dump, add_items_dump, add_map_dump, add_quoted};
use rhai_value::Dynamic;
use std::alloc::AllocError;

fn kinds(desk: &mut Desk, x: &Dynamic) -> Result<(), AllocError> {
    desk.answers.say_flag("variant", x.is_variant())?;
    desk.answers.say_flag("shared", x.is_shared())?;
    let flag = x.is_read_only(&desk.store);
    desk.answers.say_flag("read_only", flag)?;
    let flag = x.is_locked(&desk.store);
    desk.answers.say_flag("locked", flag)?;
    let name = x.type_name(&desk.store);
    desk.answers.say("type_name", name)?;
    let flag = x.is_unit(&desk.store);
    desk.answers.say_flag("is_unit", flag)?;
    let flag = x.is_int(&desk.store);
    desk.answers.say_flag("is_int", flag)?;
    let flag = x.is_bool(&desk.store);
    desk.answers.say_flag("is_bool", flag)?;
    let flag = x.is_char(&desk.store);
    desk.answers.say_flag("is_char", flag)?;
    let flag = x.is_string(&desk.store);
    desk.answers.say_flag("is_string", flag)?;
    let flag = x.is_array(&desk.store);
    desk.answers.say_flag("is_array", flag)?;
    let flag = x.is_blob(&desk.store);
    desk.answers.say_flag("is_blob", flag)?;
    let flag = x.is_map(&desk.store);
    desk.answers.say_flag("is_map", flag)?;
    let flag = x.is_fnptr(&desk.store);
    desk.answers.say_flag("is_fnptr", flag)
}

fn plain(desk: &mut Desk, x: &Dynamic) -> Result<(), AllocError> {
    match x.as_unit(&desk.store) {
        Ok(()) => desk.answers.say("as_unit", "()")?,
        Err(name) => desk.answers.say("as_unit", name)?,
    }
    match x.as_int(&desk.store) {
        Ok(int) => desk.answers.say_number("as_int", int)?,
        Err(name) => desk.answers.say("as_int", name)?,
    }
    match x.as_bool(&desk.store) {
        Ok(flag) => desk.answers.say_flag("as_bool", flag)?,
        Err(name) => desk.answers.say("as_bool", name)?,
    }
    match x.as_char(&desk.store) {
        Ok(character) => desk
            .answers
            .say_number("as_char", i64::from(u32::from(character))),
        Err(name) => desk.answers.say("as_char", name),
    }
}

fn references(desk: &mut Desk, x: &Dynamic) -> Result<(), AllocError> {
    desk.answers.key("as_text")?;
    match x.as_immutable_string_ref(&desk.store) {
        Ok(text) => add_quoted(&mut desk.answers.text, text.as_str())?,
        Err(name) => desk.answers.text.push_str(name)?,
    }
    desk.answers.end()?;
    desk.answers.key("as_array")?;
    match x.as_array_ref(&desk.store) {
        Ok(items) => add_items_dump(&mut desk.answers.text, &desk.store, items.as_slice())?,
        Err(name) => desk.answers.text.push_str(name)?,
    }
    desk.answers.end()?;
    desk.answers.key("as_blob")?;
    match x.as_blob_ref(&desk.store) {
        Ok(bytes) => {
            let copy = Dynamic::from_blob(Vec::from_slice(desk.alloc, bytes.as_slice())?);
            add_dump(&mut desk.answers.text, &desk.store, &copy)?;
        }
        Err(name) => desk.answers.text.push_str(name)?,
    }
    desk.answers.end()?;
    desk.answers.key("as_map")?;
    match x.as_map_ref(&desk.store) {
        Ok(map) => add_map_dump(&mut desk.answers.text, &desk.store, map)?,
        Err(name) => desk.answers.text.push_str(name)?,
    }
    desk.answers.end()
}

pub fn ask(desk: &mut Desk, x: &Dynamic) -> Result<(), AllocError> {
    kinds(desk, x)?;
    plain(desk, x)?;
    references(desk, x)
}
