//! The texts of values by the port's rule: a holder of an open or marked cell is `<shared>`, and characters past U+007F aren't escaped.

use crate::dump::cell_of;
use crate::ends::parts;
use rhai::{hooks, Dynamic, Union};
use std::fmt::Write as _;

#[derive(Clone, Copy, PartialEq)]
pub enum Form {
    Display,
    Inner,
    Debug,
}

fn quoted(c: char, by: char, out: &mut String) {
    match c {
        '\0' => out.push_str("\\0"),
        '\t' => out.push_str("\\t"),
        '\n' => out.push_str("\\n"),
        '\r' => out.push_str("\\r"),
        '\\' => out.push_str("\\\\"),
        c if c == by => {
            out.push('\\');
            out.push(c);
        }
        c if (c as u32) < 0x20 || c as u32 == 0x7f => {
            let _ = write!(out, "\\u{{{:x}}}", c as u32);
        }
        c => out.push(c),
    }
}

fn named(s: &str, form: Form, out: &mut String) {
    if form == Form::Debug {
        out.push('"');
        s.chars().for_each(|c| quoted(c, '"', out));
        out.push('"');
    } else {
        out.push_str(s);
    }
}

/// The text by the port's rule: a holder of an open or marked cell is `<shared>`, and characters past U+007F aren't escaped.
fn printed(v: &Dynamic, form: Form, path: &mut Vec<*const ()>, out: &mut String) {
    let of_items = if form == Form::Display { Form::Debug } else { form };
    match hooks::union(v) {
        Union::Unit(..) => {
            if form == Form::Debug {
                out.push_str("()");
            }
        }
        Union::Str(s, ..) => named(s, form, out),
        Union::Char(c, ..) => {
            if form == Form::Debug {
                out.push('\'');
                quoted(*c, '\'', out);
                out.push('\'');
            } else {
                out.push(*c);
            }
        }
        Union::Array(a, ..) => {
            out.push('[');
            for (i, v) in a.iter().enumerate() {
                if i > 0 {
                    out.push_str(", ");
                }
                printed(v, of_items, path, out);
            }
            out.push(']');
        }
        Union::Map(m, ..) => {
            out.push_str("#{");
            for (i, (k, v)) in m.iter().enumerate() {
                if i > 0 {
                    out.push_str(", ");
                }
                named(k, of_items, out);
                out.push_str(": ");
                printed(v, of_items, path, out);
            }
            out.push('}');
        }
        Union::FnPtr(f, ..) => {
            out.push_str("Fn(");
            named(f.fn_name(), form, out);
            if form == Form::Debug {
                for v in f.curry() {
                    out.push_str(", ");
                    printed(v, form, path, out);
                }
            }
            out.push(')');
        }
        Union::Shared(cell, ..) => match cell.try_borrow() {
            Ok(content) if !path.contains(&cell_of(v).unwrap()) => {
                path.push(cell_of(v).unwrap());
                printed(&content, if form == Form::Debug { Form::Debug } else { Form::Inner }, path, out);
                path.pop();
                out.push_str(" (shared)");
            }
            _ => out.push_str("<shared>"),
        },
        _ => {
            let _ = write!(out, "{v}");
        }
    }
}

pub fn printed_by_rule(v: &Dynamic, form: Form) -> String {
    let mut out = String::new();
    printed(v, form, &mut Vec::new(), &mut out);
    out
}

/// Whether a value can be hashed by the port's rule: no marked cell, no loop.
pub fn hashable_by_rule(v: &Dynamic, path: &mut Vec<*const ()>) -> bool {
    let Union::Shared(cell, ..) = hooks::union(v) else {
        return parts(v).into_iter().all(|v| hashable_by_rule(v, path));
    };
    let place = cell_of(v).expect("a holder");
    let Ok(content) = cell.try_borrow() else { return false };
    if path.contains(&place) {
        return false;
    }
    path.push(place);
    let is = hashable_by_rule(&content, path);
    path.pop();
    is
}

/// The text without the escapes of characters past U+007F.
#[must_use]
pub fn unescaped(s: &str) -> String {
    let mut out = String::new();
    let mut rest = s;
    while let Some(c) = rest.chars().next() {
        if c == '\\' {
            if let Some((n, len)) = rest.strip_prefix("\\u{").and_then(|r| {
                let e = r.find('}')?;
                Some((u32::from_str_radix(&r[..e], 16).ok()?, e + 4))
            }) {
                if n > 0x7f {
                    out.push(char::from_u32(n).unwrap());
                    rest = &rest[len..];
                    continue;
                }
            }
            let two: String = rest.chars().take(2).collect();
            out.push_str(&two);
            rest = &rest[two.len()..];
            continue;
        }
        out.push(c);
        rest = &rest[c.len_utf8()..];
    }
    out
}
