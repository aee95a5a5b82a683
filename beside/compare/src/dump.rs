//! A text that shows a whole value, with tags, modes and cells.

use rhai::{hooks, AccessMode, Dynamic, ExclusiveRange, InclusiveRange, Locked, Map, Union};
use std::fmt::Write as _;

pub fn quote(s: &str, out: &mut String) {
    out.push('"');
    for c in s.chars() {
        if c == '"' || c == '\\' || (c as u32) < 0x20 || c as u32 == 0x7f {
            let _ = write!(out, "\\u{{{:x}}}", c as u32);
        } else {
            out.push(c);
        }
    }
    out.push('"');
}

fn own_host(v: &Dynamic) -> String {
    macro_rules! hosts {
        ($($t:ident)*) => { $(
            if let Some(n) = hooks::downcast_ref::<$t>(v) {
                return format!(concat!(stringify!($t), " {}"), n);
            }
        )* };
    }
    hosts!(u8 u16 u32 u64 u128 i8 i16 i32 i128);
    if let Some(r) = hooks::downcast_ref::<ExclusiveRange>(v) {
        return format!("range {} {}", r.start, r.end);
    }
    if let Some(r) = hooks::downcast_ref::<InclusiveRange>(v) {
        return format!("rangeeq {} {}", r.start(), r.end());
    }
    "other".into()
}

/// Which cell a holder has.
pub fn cell_of(v: &Dynamic) -> Option<*const ()> {
    match hooks::union(v) {
        Union::Shared(cell, ..) => Some(std::rc::Rc::as_ptr(cell).cast()),
        _ => None,
    }
}

/// How many levels of a value are printed; `deep` stands for the rest, also if a cell contains a holder of itself.
const LEVELS: u32 = 12;

fn items(a: &[Dynamic], levels: u32, out: &mut String) {
    let _ = write!(out, "{}", a.len());
    for v in a {
        out.push(' ');
        value(v, levels, out);
    }
}

fn map(m: &Map, levels: u32, out: &mut String) {
    let _ = write!(out, "map {}", m.len());
    for (k, v) in m {
        out.push(' ');
        quote(k, out);
        out.push(' ');
        value(v, levels, out);
    }
}

fn blob(b: &[u8], out: &mut String) {
    out.push_str("blob ");
    for byte in b {
        let _ = write!(out, "{byte:02x}");
    }
}

fn held(cell: &Locked<Dynamic>, levels: u32, out: &mut String) {
    match cell.try_borrow() {
        Err(_) => out.push_str("locked"),
        Ok(content) => {
            out.push_str("shared ");
            value(&content, levels, out);
        }
    }
}

fn label(v: &Dynamic, out: &mut String) {
    if v.tag() != 0 {
        let _ = write!(out, "tag {} ", v.tag());
    }
    if hooks::access_mode(v) == AccessMode::ReadOnly {
        out.push_str("ro ");
    }
}

fn value(v: &Dynamic, levels: u32, out: &mut String) {
    let Some(below) = levels.checked_sub(1) else { return out.push_str("deep") };
    label(v, out);
    let written = match hooks::union(v) {
        Union::Unit(..) => write!(out, "unit"),
        Union::Bool(b, ..) => write!(out, "bool {b}"),
        Union::Char(c, ..) => write!(out, "char {:x}", *c as u32),
        Union::Int(n, ..) => write!(out, "int {n}"),
        Union::Variant(..) => write!(out, "{}", own_host(v)),
        Union::Str(s, ..) => {
            out.push_str("text ");
            quote(s, out);
            Ok(())
        }
        Union::Array(a, ..) => {
            out.push_str("array ");
            items(a, below, out);
            Ok(())
        }
        Union::Blob(b, ..) => {
            blob(b, out);
            Ok(())
        }
        Union::Map(m, ..) => {
            map(m, below, out);
            Ok(())
        }
        Union::FnPtr(f, ..) => {
            out.push_str("fn ");
            quote(f.fn_name(), out);
            out.push(' ');
            items(f.curry(), below, out);
            Ok(())
        }
        Union::Shared(cell, ..) => {
            held(cell, below, out);
            Ok(())
        }
    };
    written.expect("a text");
}

#[must_use]
pub fn dumped(v: &Dynamic) -> String {
    let mut out = String::new();
    value(v, LEVELS, &mut out);
    out
}

#[must_use]
pub fn dumped_items(a: &[Dynamic]) -> String {
    let mut out = String::from("array ");
    items(a, LEVELS, &mut out);
    out
}

#[must_use]
pub fn dumped_map(m: &Map) -> String {
    let mut out = String::new();
    map(m, LEVELS, &mut out);
    out
}
