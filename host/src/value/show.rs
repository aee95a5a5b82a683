//! Formats values as scripts print them.
use super::head::{Leaf, Parts};
use super::{Value, SHOWN};
use std::fmt::{self, Write};

/// Formats the value as `print` does: texts and characters plainly, unit as nothing, and the
/// contents of arrays and maps as `debug` does.
///
/// ```
/// use rhai_world::{Engine, EvalError, Value};
///
/// let value: Value = Engine::new().eval("#{name: \"n\", of: [1, 'c', ()]}")?;
/// assert_eq!(value.to_string(), r#"#{"name": "n", "of": [1, 'c', ()]}"#);
/// assert_eq!(Value::from("as it is").to_string(), "as it is");
/// # Ok::<(), EvalError>(())
/// ```
impl fmt::Display for Value {
    fn fmt(&self, f: &mut fmt::Formatter<'_>) -> fmt::Result {
        match self.parts() {
            Parts::Leaf(Leaf::Unit) => Ok(()),
            Parts::Leaf(Leaf::Text(text)) => f.write_str(text),
            Parts::Leaf(Leaf::Char(character)) => f.write_char(character),
            Parts::FnPtr(name, _) => write!(f, "Fn({name})"),
            Parts::Leaf(_) | Parts::Array(_) | Parts::Map(_) => shown(self, SHOWN, f),
        }
    }
}

/// Formats this many levels of a value as `debug` does.
fn shown(value: &Value, levels: usize, f: &mut fmt::Formatter<'_>) -> fmt::Result {
    let Some(levels) = levels.checked_sub(1) else {
        return f.write_str("..");
    };
    match value.parts() {
        Parts::Leaf(leaf) => shown_leaf(leaf, f),
        Parts::Array(items) => {
            f.write_char('[')?;
            shown_items(items.as_slice(), "", levels, f)?;
            f.write_char(']')
        }
        Parts::Map(fields) => {
            f.write_str("#{")?;
            for (number, (key, value)) in fields.iter().enumerate() {
                write!(f, "{}{key:?}: ", if number == 0 { "" } else { ", " })?;
                shown(value, levels, f)?;
            }
            f.write_char('}')
        }
        Parts::FnPtr(name, curried) => {
            write!(f, "Fn({name:?}")?;
            shown_items(curried.as_slice(), ", ", levels, f)?;
            f.write_char(')')
        }
    }
}

fn shown_items(items: &[Value], before: &str, levels: usize, f: &mut fmt::Formatter<'_>) -> fmt::Result {
    for (number, item) in items.iter().enumerate() {
        f.write_str(if number == 0 { before } else { ", " })?;
        shown(item, levels, f)?;
    }
    Ok(())
}

fn shown_leaf(leaf: Leaf<'_>, f: &mut fmt::Formatter<'_>) -> fmt::Result {
    match leaf {
        Leaf::Unit => f.write_str("()"),
        Leaf::Bool(truth) => write!(f, "{truth}"),
        Leaf::Int(n) => write!(f, "{n}"),
        Leaf::Char(character) => write!(f, "{character:?}"),
        Leaf::Text(text) => write!(f, "{text:?}"),
        Leaf::Blob(bytes) => shown_blob(bytes, f),
        Leaf::U8(n) => write!(f, "{n}"),
        Leaf::U16(n) => write!(f, "{n}"),
        Leaf::U32(n) => write!(f, "{n}"),
        Leaf::U64(n) => write!(f, "{n}"),
        Leaf::U128(n) => write!(f, "{n}"),
        Leaf::I8(n) => write!(f, "{n}"),
        Leaf::I16(n) => write!(f, "{n}"),
        Leaf::I32(n) => write!(f, "{n}"),
        Leaf::I128(n) => write!(f, "{n}"),
        Leaf::Range(start, i64::MAX) => write!(f, "{start}.."),
        Leaf::RangeWithEnd(start, i64::MAX) => write!(f, "{start}..="),
        Leaf::Range(start, end) => write!(f, "{start}..{end}"),
        Leaf::RangeWithEnd(start, end) => write!(f, "{start}..={end}"),
    }
}

fn shown_blob(bytes: &[u8], f: &mut fmt::Formatter<'_>) -> fmt::Result {
    f.write_char('[')?;
    for (number, byte) in bytes.iter().enumerate() {
        let space = if number > 0 && number % 8 == 0 { " " } else { "" };
        write!(f, "{space}{byte:02x}")?;
    }
    f.write_char(']')
}
