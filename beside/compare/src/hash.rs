//! Hash bytes. Tags, modes and sharing aren't seen; numbers are little-endian in their own width, and a count has eight bytes.

use rhai::{hooks, Dynamic, ExclusiveRange, InclusiveRange, Scope, Union};

fn count(n: usize, out: &mut Vec<u8>) {
    out.extend((n as u64).to_le_bytes());
}

/// Bytes, after their number.
fn sized(bytes: &[u8], out: &mut Vec<u8>) {
    count(bytes.len(), out);
    out.extend(bytes);
}

fn host(v: &Dynamic, out: &mut Vec<u8>) {
    macro_rules! numbers {
        ($($kind:literal $t:ident)*) => { $(
            if let Some(n) = hooks::downcast_ref::<$t>(v) {
                out.push($kind);
                out.extend(n.to_le_bytes());
            }
        )* };
    }
    numbers!(0 u8 1 u16 2 u32 3 u64 4 u128 5 i8 6 i16 7 i32 8 i128);
    let range = hooks::downcast_ref::<ExclusiveRange>(v).map(|range| (9, range.start, range.end));
    let closed = hooks::downcast_ref::<InclusiveRange>(v).map(|range| (10, *range.start(), *range.end()));
    if let Some((kind, start, end)) = range.or(closed) {
        out.push(kind);
        out.extend(start.to_le_bytes());
        out.extend(end.to_le_bytes());
    }
}

/// Adds the bytes of a value that can be hashed: its kind, and what it has.
fn add(v: &Dynamic, out: &mut Vec<u8>) {
    match hooks::union(v) {
        Union::Unit(..) => out.push(0),
        Union::Bool(b, ..) => out.extend([1, u8::from(*b)]),
        Union::Str(s, ..) => {
            out.push(2);
            sized(s.as_bytes(), out);
        }
        Union::Char(c, ..) => {
            out.push(3);
            out.extend(u32::from(*c).to_le_bytes());
        }
        Union::Int(n, ..) => {
            out.push(4);
            out.extend(n.to_le_bytes());
        }
        Union::Array(items, ..) => {
            out.push(5);
            count(items.len(), out);
            items.iter().for_each(|v| add(v, out));
        }
        Union::Blob(bytes, ..) => {
            out.push(6);
            sized(bytes, out);
        }
        Union::Map(map, ..) => {
            out.push(7);
            count(map.len(), out);
            for (key, v) in map.iter() {
                sized(key.as_bytes(), out);
                add(v, out);
            }
        }
        Union::FnPtr(f, ..) => {
            out.push(8);
            sized(f.fn_name().as_bytes(), out);
            count(f.curry().len(), out);
            f.curry().iter().for_each(|v| add(v, out));
        }
        Union::Variant(..) => {
            out.push(9);
            host(v, out);
        }
        Union::Shared(cell, ..) => add(&cell.borrow(), out),
    }
}

fn digits(bytes: &[u8]) -> String {
    bytes.iter().map(|byte| format!("{byte:02x}")).collect()
}

/// The hash bytes of a value that can be hashed, two digits each.
#[must_use]
pub fn of_value(v: &Dynamic) -> String {
    let mut out = Vec::new();
    add(v, &mut out);
    digits(&out)
}

/// The hash bytes of a scope whose values can be hashed: each entry's name, value and aliases.
#[must_use]
pub fn of_scope(scope: &Scope) -> String {
    let mut out = Vec::new();
    count(scope.len(), &mut out);
    for (name, v, aliases) in scope {
        sized(name.as_bytes(), &mut out);
        add(v, &mut out);
        count(aliases.len(), &mut out);
        aliases.iter().for_each(|alias| sized(alias.as_bytes(), &mut out));
    }
    digits(&out)
}
