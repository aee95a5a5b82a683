//! Values as the bytes from which the library reads them: their hash bytes.
use super::head::{Children, Head, Leaf};
use super::Value;
use crate::error::Error;

impl Value {
    /// Returns the bytes of this value.
    pub(crate) fn to_bytes(&self) -> Result<Vec<u8>, Error> {
        let mut out = Vec::new();
        add_value(&mut out, self)?;
        Ok(out)
    }

    /// Passes the bytes of this value on. Unit, a boolean and an int need no allocation.
    pub(crate) fn with_bytes<T>(&self, call: impl FnOnce(&[u8]) -> T) -> Result<T, Error> {
        Ok(match self {
            Value::Unit => call(&[0]),
            Value::Bool(truth) => call(&[1, u8::from(*truth)]),
            Value::Int(n) => {
                let mut bytes = [4; INT_BYTES];
                bytes[1..].copy_from_slice(&n.to_le_bytes());
                call(&bytes)
            }
            other => call(&other.to_bytes()?),
        })
    }

    /// Returns the bytes of an array of these values.
    pub(crate) fn list_bytes(values: &[Value]) -> Result<Vec<u8>, Error> {
        let mut out = Vec::new();
        Value::add_list(values, &mut out)?;
        Ok(out)
    }

    /// Appends the bytes of an array of these values.
    pub(crate) fn add_list(values: &[Value], out: &mut Vec<u8>) -> Result<(), Error> {
        out.try_reserve(INT_BYTES * (values.len() + 1))?;
        add_count(out, &[5], values.len())?;
        values.iter().try_for_each(|value| match value {
            Value::Int(n) => add_both(out, &[4], &n.to_le_bytes()),
            other => add_value(out, other),
        })
    }
}

/// How many bytes an int takes, and the head of an array.
const INT_BYTES: usize = 9;

fn add_value(out: &mut Vec<u8>, value: &Value) -> Result<(), Error> {
    let mut open: Vec<Children<'_>> = Vec::new();
    let mut next = Some(value);
    loop {
        if let Some(value) = next.take() {
            add_head(out, value.head())?;
            if value.has_inside() {
                open.try_reserve(1)?;
                open.push(value.children());
            }
        }
        let Some(children) = open.last_mut() else { return Ok(()) };
        let has_keys = matches!(children, Children::Fields(_));
        match children.next() {
            Some((key, value)) => {
                if has_keys {
                    add_sized(out, key.as_bytes())?;
                }
                next = Some(value);
            }
            None => {
                open.pop();
            }
        }
    }
}

fn add_head(out: &mut Vec<u8>, head: Head<'_>) -> Result<(), Error> {
    match head {
        Head::Leaf(leaf) => add_leaf(out, leaf),
        Head::Array(count) => add_count(out, &[5], count),
        Head::Map(count) => add_count(out, &[7], count),
        Head::FnPtr(name, count) => {
            add(out, &[8])?;
            add_sized(out, name.as_bytes())?;
            add_count(out, &[], count)
        }
    }
}

fn add_leaf(out: &mut Vec<u8>, leaf: Leaf<'_>) -> Result<(), Error> {
    match leaf {
        Leaf::Unit => add(out, &[0]),
        Leaf::Bool(truth) => add(out, &[1, u8::from(truth)]),
        Leaf::Text(text) => add(out, &[2]).and_then(|()| add_sized(out, text.as_bytes())),
        Leaf::Char(character) => add_both(out, &[3], &u32::from(character).to_le_bytes()),
        Leaf::Int(n) => add_both(out, &[4], &n.to_le_bytes()),
        Leaf::Blob(bytes) => add(out, &[6]).and_then(|()| add_sized(out, bytes)),
        Leaf::U8(n) => add(out, &[9, 0, n]),
        Leaf::U16(n) => add_both(out, &[9, 1], &n.to_le_bytes()),
        Leaf::U32(n) => add_both(out, &[9, 2], &n.to_le_bytes()),
        Leaf::U64(n) => add_both(out, &[9, 3], &n.to_le_bytes()),
        Leaf::U128(n) => add_both(out, &[9, 4], &n.to_le_bytes()),
        Leaf::I8(n) => add_both(out, &[9, 5], &n.to_le_bytes()),
        Leaf::I16(n) => add_both(out, &[9, 6], &n.to_le_bytes()),
        Leaf::I32(n) => add_both(out, &[9, 7], &n.to_le_bytes()),
        Leaf::I128(n) => add_both(out, &[9, 8], &n.to_le_bytes()),
        Leaf::Range(start, end) => add_range(out, 9, start, end),
        Leaf::RangeWithEnd(start, end) => add_range(out, 10, start, end),
    }
}

fn add_range(out: &mut Vec<u8>, kind: u8, start: i64, end: i64) -> Result<(), Error> {
    add_both(out, &[9, kind], &start.to_le_bytes())?;
    add(out, &end.to_le_bytes())
}

fn add_sized(out: &mut Vec<u8>, bytes: &[u8]) -> Result<(), Error> {
    add_count(out, &[], bytes.len())?;
    add(out, bytes)
}

fn add_count(out: &mut Vec<u8>, kind: &[u8], count: usize) -> Result<(), Error> {
    add_both(out, kind, &(count as u64).to_le_bytes())
}

fn add_both(out: &mut Vec<u8>, front: &[u8], back: &[u8]) -> Result<(), Error> {
    add(out, front)?;
    add(out, back)
}

fn add(out: &mut Vec<u8>, bytes: &[u8]) -> Result<(), Error> {
    out.try_reserve(bytes.len())?;
    out.extend_from_slice(bytes);
    Ok(())
}
