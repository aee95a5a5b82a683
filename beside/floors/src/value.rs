//! Values, texts and cells as wide as the port's, as its promises require.

pub use crate::text::Text;

pub type Tag = i32;

#[derive(Clone, Copy, PartialEq, Eq)]
pub enum Mode {
    ReadWrite,
    ReadOnly,
}

/// A value of the host's own. Numbers of 128 bits are aligned to 16, and so is what holds one.
#[derive(Clone, Copy)]
pub enum Host {
    U128(u128),
    Range(i64, i64),
}

/// What a script holds: tag and mode, and then the content.
#[repr(u8)]
pub enum Value {
    Unit(Tag, Mode),
    Bool(Tag, Mode, bool),
    Text(Tag, Mode, Text),
    Char(Tag, Mode, char),
    Int(Tag, Mode, i64),
    Array(Tag, Mode, Vec<Value>),
    Blob(Tag, Mode, Vec<u8>),
    Host(Tag, Mode, Host),
    Shared(Tag, Mode, usize),
}

const _: () = assert!(size_of::<Value>() == 48);

/// An error of 48 bytes, as `EvalAltResult` has them, so that a result has 64.
pub enum Fault {
    Mismatch(&'static str, &'static str, (u32, u32)),
    Arithmetic(u8, (u32, u32)),
    TooLarge(u8, (u32, u32)),
    Memory,
}

const _: () = assert!(size_of::<Result<Value, Fault>>() == 64);

impl Value {
    pub const UNIT: Value = Value::Unit(0, Mode::ReadWrite);

    #[must_use]
    pub const fn int(n: i64) -> Value {
        Value::Int(0, Mode::ReadWrite, n)
    }

    #[must_use]
    pub const fn bool(b: bool) -> Value {
        Value::Bool(0, Mode::ReadWrite, b)
    }

    #[must_use]
    pub const fn text(text: Text) -> Value {
        Value::Text(0, Mode::ReadWrite, text)
    }

    #[must_use]
    pub fn type_name(&self) -> &'static str {
        match self {
            Value::Unit(..) => "()",
            Value::Bool(..) => "bool",
            Value::Text(..) => "string",
            Value::Char(..) => "char",
            Value::Int(..) => "i64",
            Value::Array(..) => "array",
            Value::Blob(..) => "blob",
            Value::Host(..) => "host",
            Value::Shared(..) => "<shared>",
        }
    }

    /// The int that the value itself has.
    #[must_use]
    #[inline(always)]
    pub fn own_int(&self) -> Option<i64> {
        match self {
            Value::Int(_, _, n) => Some(*n),
            _ => None,
        }
    }

    /// The held int, in the value itself or in its cell.
    #[inline(always)]
    pub fn held_int(&self, cells: &[Value]) -> Result<i64, &'static str> {
        match self {
            Value::Int(_, _, n) => Ok(*n),
            Value::Shared(_, _, cell) => cells.get(*cell).and_then(Value::own_int).ok_or("i64"),
            _ => Err("i64"),
        }
    }

    /// A copy with mode ReadWrite; `None` if an allocation fails.
    #[must_use]
    #[inline(always)]
    pub fn copy(&self) -> Option<Value> {
        match self {
            Value::Int(tag, _, n) => Some(Value::Int(*tag, Mode::ReadWrite, *n)),
            Value::Shared(tag, _, cell) => Some(Value::Shared(*tag, Mode::ReadWrite, *cell)),
            Value::Text(tag, _, text) => Some(Value::Text(*tag, Mode::ReadWrite, text.clone())),
            _ => self.copy_of_others(),
        }
    }

    #[inline(never)]
    fn copy_of_others(&self) -> Option<Value> {
        Some(match self {
            Value::Unit(tag, _) => Value::Unit(*tag, Mode::ReadWrite),
            Value::Bool(tag, _, b) => Value::Bool(*tag, Mode::ReadWrite, *b),
            Value::Text(tag, _, text) => Value::Text(*tag, Mode::ReadWrite, text.clone()),
            Value::Char(tag, _, c) => Value::Char(*tag, Mode::ReadWrite, *c),
            Value::Int(tag, _, n) => Value::Int(*tag, Mode::ReadWrite, *n),
            Value::Array(tag, _, items) => Value::Array(*tag, Mode::ReadWrite, copied(items)?),
            Value::Blob(tag, _, bytes) => {
                let mut copy = Vec::new();
                copy.try_reserve_exact(bytes.len()).ok()?;
                copy.extend_from_slice(bytes);
                Value::Blob(*tag, Mode::ReadWrite, copy)
            }
            Value::Host(tag, _, host) => Value::Host(*tag, Mode::ReadWrite, *host),
            Value::Shared(tag, _, cell) => Value::Shared(*tag, Mode::ReadWrite, *cell),
        })
    }
}

fn copied(items: &[Value]) -> Option<Vec<Value>> {
    let mut copies = Vec::new();
    copies.try_reserve_exact(items.len()).ok()?;
    for item in items {
        copies.push(item.copy()?);
    }
    Some(copies)
}

impl Clone for Value {
    /// The same without an error: a failed allocation ends the program, after the same test.
    #[inline(always)]
    fn clone(&self) -> Value {
        self.copy().expect("memory")
    }
}
