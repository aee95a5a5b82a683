//! The text of a value that shows everything: tags, modes and cells too.

use rhai_value::{AccessMode, Dynamic, FnPtr, Host, Map, Store, Union};
use std::alloc::AllocError;

/// How many levels of a value are written; `deep` stands for those below, also if a cell contains a
/// holder of itself.
const LEVELS: u32 = 12;

/// Adds a text in quotes; invisible characters are written by their codes.
pub fn add_quoted(out: &mut String, text: &str) -> Result<(), AllocError> {
    out.push('"')?;
    for character in text.chars() {
        let number = u32::from(character);
        if character == '"' || character == '\\' || number < 0x20 || number == 0x7f {
            out.push_str("\\u{")?;
            write!(out, "{number:x}")?;
            out.push('}')?;
        } else {
            out.push(character)?;
        }
    }
    out.push('"')?;
    Ok(())
}

fn add_host(out: &mut String, host: &Host) -> Result<(), AllocError> {
    match host {
        Host::U8(n) => write!(out, "u8 {n}"),
        Host::U16(n) => write!(out, "u16 {n}"),
        Host::U32(n) => write!(out, "u32 {n}"),
        Host::U64(n) => write!(out, "u64 {n}"),
        Host::U128(n) => write!(out, "u128 {n}"),
        Host::I8(n) => write!(out, "i8 {n}"),
        Host::I16(n) => write!(out, "i16 {n}"),
        Host::I32(n) => write!(out, "i32 {n}"),
        Host::I128(n) => write!(out, "i128 {n}"),
        Host::ExclusiveRange(range) => {
            let (start, end) = (range.start, range.end);
            write!(out, "range {start} {end}")
        }
        Host::InclusiveRange(range) => {
            let (start, end) = (range.start, range.end);
            write!(out, "rangeeq {start} {end}")
        }
    }
}

#[cycle(dump)]
fn add_items(
    out: &mut String,
    s: &Store,
    items: &[Dynamic],
    levels: u32,
) -> Result<(), AllocError> {
    let count = items.len();
    write!(out, "{count}")?;
    for item in items {
        out.push(' ')?;
        add_value(out, s, item, levels)?;
    }
    Ok(())
}

#[cycle(dump)]
fn add_map(out: &mut String, s: &Store, map: &Map, levels: u32) -> Result<(), AllocError> {
    let count = map.len();
    write!(out, "map {count}")?;
    for (key, value) in map.iter() {
        out.push(' ')?;
        add_quoted(out, key)?;
        out.push(' ')?;
        add_value(out, s, value, levels)?;
    }
    Ok(())
}

#[cycle(dump)]
fn add_function(
    out: &mut String,
    s: &Store,
    function: &FnPtr,
    levels: u32,
) -> Result<(), AllocError> {
    out.push_str("fn ")?;
    add_quoted(out, function.fn_name())?;
    out.push(' ')?;
    add_items(out, s, function.curry(), levels)
}

/// Adds two digits for each byte.
pub fn add_digits(out: &mut String, bytes: &[u8]) -> Result<(), AllocError> {
    for byte in bytes {
        let byte = *byte;
        write!(out, "{byte:02x}")?;
    }
    Ok(())
}

fn add_blob(out: &mut String, bytes: &[u8]) -> Result<(), AllocError> {
    out.push_str("blob ")?;
    add_digits(out, bytes)
}

#[cycle(dump)]
fn add_holder(out: &mut String, s: &Store, value: &Dynamic, levels: u32) -> Result<(), AllocError> {
    match value.read_whole(s) {
        None => out.push_str("locked"),
        Some(content) => {
            out.push_str("shared ")?;
            add_value(out, s, content, levels)
        }
    }
}

fn add_label(out: &mut String, value: &Dynamic) -> Result<(), AllocError> {
    let tag = value.tag();
    if tag != 0 {
        write!(out, "tag {tag} ")?;
    }
    if value.access_mode() == AccessMode::ReadOnly {
        out.push_str("ro ")?;
    }
    Ok(())
}

fn add_char(out: &mut String, character: char) -> Result<(), AllocError> {
    let number = u32::from(character);
    write!(out, "char {number:x}")
}

fn add_text(out: &mut String, text: &str) -> Result<(), AllocError> {
    out.push_str("text ")?;
    add_quoted(out, text)
}

#[cycle(dump)]
fn add_value(out: &mut String, s: &Store, value: &Dynamic, levels: u32) -> Result<(), AllocError> {
    if levels == 0 {
        return out.push_str("deep");
    }
    add_label(out, value)?;
    match value.parts() {
        Union::Unit(_, _, _) => out.push_str("unit"),
        Union::Bool(_, _, value) => write!(out, "bool {value}"),
        Union::Int(_, _, value) => write!(out, "int {value}"),
        Union::Char(_, _, value) => add_char(out, *value),
        Union::Str(_, _, text) => add_text(out, text.as_str()),
        Union::Blob(_, _, bytes) => add_blob(out, bytes.as_slice()),
        Union::Variant(_, _, host) => add_host(out, host),
        Union::Array(_, _, items) => {
            out.push_str("array ")?;
            add_items(out, s, items.as_slice(), levels - 1)
        }
        Union::Map(_, _, map) => add_map(out, s, map, levels - 1),
        Union::FnPtr(_, _, function) => add_function(out, s, function, levels - 1),
        Union::Shared(_, _, _) => add_holder(out, s, value, levels - 1),
    }
}

/// Adds the dump of a value.
pub fn add_dump(out: &mut String, s: &Store, value: &Dynamic) -> Result<(), AllocError> {
    add_value(out, s, value, LEVELS)
}

/// Adds the dump of items.
pub fn add_items_dump(out: &mut String, s: &Store, items: &[Dynamic]) -> Result<(), AllocError> {
    out.push_str("array ")?;
    add_items(out, s, items, LEVELS)
}

/// Adds the dump of a map.
pub fn add_map_dump(out: &mut String, s: &Store, map: &Map) -> Result<(), AllocError> {
    add_map(out, s, map, LEVELS)
}
