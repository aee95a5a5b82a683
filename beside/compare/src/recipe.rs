//! Recipes: the values of a call, and the call; their bytes.

#[derive(Clone, Debug, PartialEq)]
pub enum V {
    Unit,
    Bool(bool),
    Int(i64),
    Char(char),
    Text(String),
    Blob(Vec<u8>),
    Array(Vec<V>),
    Map(Vec<(String, V)>),
    Fn(String, Vec<V>),
    /// A host number: its kind, from u8 to u128 and i8 to i128, and its bits.
    Host(u8, u128),
    Range(i64, i64),
    RangeEq(i64, i64),
    /// A holder of a new cell; cells are numbered as they are made.
    Holder(Box<V>),
    /// A holder of an earlier cell.
    Again(u8),
    Tag(i32, Box<V>),
    /// With its own mode ReadOnly.
    Ro(Box<V>),
}

/// Kinds of calls, each with its share of all.
macro_rules! kinds {
    ($($kind:ident $share:literal)*) => {
        #[derive(Clone, Copy, Debug, PartialEq, Eq, PartialOrd, Ord)]
        pub enum Kind { $($kind),* }

        impl Kind {
            pub const ALL: &'static [Kind] = &[$(Kind::$kind),*];

            /// How many of all shares are of this kind.
            #[must_use]
            pub const fn share(self) -> u64 {
                match self { $(Kind::$kind => $share),* }
            }

            #[must_use]
            pub fn shares() -> u64 {
                Self::ALL.iter().map(|kind| kind.share()).sum()
            }
        }
    };
}

kinds! {
    Operate 40
    Assign 40
    Show 25
    Ask 25
    Cast 40
    Move 35
    Offsets 15
    WriteBack 30
    Target 30
    Scope 20
    WideScope 4
    Write 18
    Make 15
    Hold 10
}

#[derive(Clone, Debug, PartialEq)]
pub enum Step {
    Value(u8, String, V),
    Plain(u8, String),
    Typed(u8, String, u8),
    Alias(String, String),
    Rewind(u8),
    Extend(Vec<(String, V)>),
    Flagged(Vec<(String, bool, V)>),
}

/// What an assignment is looked up for.
#[derive(Clone, Copy, Debug, PartialEq)]
pub enum LookUp {
    /// The operands themselves.
    Own,
    /// The first content of the first operand.
    FirstContent,
    /// What both operands hold, where that is two texts.
    HeldTexts,
}

#[derive(Clone, Debug, PartialEq)]
pub enum Call {
    /// Token, limit of texts, limit of items.
    Operate(u8, u8, u8),
    /// Token, what it is looked up for, limit of texts, limit of items.
    Assign(u8, LookUp, u8, u8),
    Show,
    Ask,
    Cast(u8, u8),
    Move(u8, i32),
    Offsets(u64, i64, i64, bool),
    /// Kind, first and second place, exclusive.
    WriteBack(u8, i64, u64, bool),
    /// 0: of the value; 1: temporary; 2: a part. How it is spent, 4 more where something is written.
    Target(u8, u8, u8, i64, u64, bool),
    Scope(Vec<Step>),
    Write(u8, String),
    /// A type, and the collection of Rust by way of which an array or a map is made.
    Make(u8, u8),
    /// What is done with the held value, and an int.
    Hold(u8, i64),
}

#[derive(Clone, Debug, PartialEq)]
pub struct Recipe {
    pub keep: bool,
    pub x: V,
    pub y: V,
    pub writes: Vec<(u8, V)>,
    pub mark: u8,
    pub call: Call,
}

fn text(s: &str, out: &mut Vec<u8>) {
    out.push(s.len() as u8);
    out.extend(s.as_bytes());
}

impl V {
    pub fn bytes(&self, out: &mut Vec<u8>) {
        match self {
            V::Unit => out.push(0),
            V::Bool(b) => out.extend([1, u8::from(*b)]),
            V::Int(n) => {
                out.push(2);
                out.extend(n.to_le_bytes());
            }
            V::Char(c) => {
                out.push(3);
                out.extend((*c as u64).to_le_bytes());
            }
            V::Text(s) => {
                out.push(4);
                text(s, out);
            }
            V::Blob(b) => {
                out.extend([5, b.len() as u8]);
                out.extend(b);
            }
            V::Array(a) => {
                out.extend([6, a.len() as u8]);
                a.iter().for_each(|v| v.bytes(out));
            }
            V::Map(m) => {
                out.extend([7, m.len() as u8]);
                for (k, v) in m {
                    text(k, out);
                    v.bytes(out);
                }
            }
            V::Fn(name, a) => {
                out.push(8);
                text(name, out);
                out.push(a.len() as u8);
                a.iter().for_each(|v| v.bytes(out));
            }
            V::Host(kind, n) => {
                out.extend([9, *kind]);
                match kind {
                    0 | 5 => out.push(*n as u8),
                    4 | 8 => out.extend(n.to_le_bytes()),
                    _ => out.extend((*n as u64).to_le_bytes()),
                }
            }
            V::Range(a, b) | V::RangeEq(a, b) => {
                out.extend([9, if matches!(self, V::Range(..)) { 9 } else { 10 }]);
                out.extend(a.to_le_bytes());
                out.extend(b.to_le_bytes());
            }
            V::Holder(v) => {
                out.push(12);
                v.bytes(out);
            }
            V::Again(k) => out.extend([13, *k]),
            V::Tag(n, v) => {
                out.push(14);
                out.extend(u64::from(n.cast_unsigned()).to_le_bytes());
                v.bytes(out);
            }
            V::Ro(v) => {
                out.push(15);
                v.bytes(out);
            }
        }
    }

    /// The name of the kind of value that this is itself.
    #[must_use]
    pub fn kind(&self) -> &'static str {
        match self {
            V::Unit => "unit",
            V::Bool(_) => "bool",
            V::Int(_) => "int",
            V::Char(_) => "char",
            V::Text(_) => "text",
            V::Blob(_) => "blob",
            V::Array(_) => "array",
            V::Map(_) => "map",
            V::Fn(..) => "fn",
            V::Host(..) => "host",
            V::Range(..) | V::RangeEq(..) => "range",
            V::Holder(_) | V::Again(_) => "holder",
            V::Tag(_, v) | V::Ro(v) => v.kind(),
        }
    }

    pub fn children(&self) -> Vec<&V> {
        match self {
            V::Array(a) | V::Fn(_, a) => a.iter().collect(),
            V::Map(m) => m.iter().map(|(_, v)| v).collect(),
            V::Holder(v) | V::Tag(_, v) | V::Ro(v) => vec![v],
            _ => Vec::new(),
        }
    }
}

impl Step {
    fn bytes(&self, out: &mut Vec<u8>) {
        match self {
            Step::Value(op, name, v) => {
                out.push(*op);
                text(name, out);
                v.bytes(out);
            }
            Step::Plain(op, name) => {
                out.push(*op);
                text(name, out);
            }
            Step::Typed(op, name, kind) => {
                out.push(*op);
                text(name, out);
                out.push(*kind);
            }
            Step::Alias(name, alias) => {
                out.push(15);
                text(name, out);
                text(alias, out);
            }
            Step::Rewind(n) => out.extend([8, 0, *n]),
            Step::Extend(items) => {
                out.extend([18, 0, items.len() as u8]);
                for (name, v) in items {
                    text(name, out);
                    v.bytes(out);
                }
            }
            Step::Flagged(items) => {
                out.extend([19, 0, items.len() as u8]);
                for (name, flag, v) in items {
                    text(name, out);
                    out.push(u8::from(*flag));
                    v.bytes(out);
                }
            }
        }
    }
}

impl Call {
    pub fn kind(&self) -> u8 {
        match self {
            Call::Operate(..) => 1,
            Call::Assign(..) => 2,
            Call::Show => 3,
            Call::Ask => 4,
            Call::Cast(..) => 5,
            Call::Move(..) => 6,
            Call::Offsets(..) => 7,
            Call::WriteBack(..) => 8,
            Call::Target(..) => 9,
            Call::Scope(..) => 10,
            Call::Write(..) => 11,
            Call::Make(..) => 12,
            Call::Hold(..) => 13,
        }
    }

    fn bytes(&self, out: &mut Vec<u8>) {
        out.push(self.kind());
        match self {
            Call::Operate(t, a, b) => out.extend([*t, 0, *a, *b]),
            Call::Assign(t, look_up, a, b) => out.extend([*t, *look_up as u8, *a, *b]),
            Call::Show | Call::Ask => (),
            Call::Cast(kind, way) | Call::Make(kind, way) => out.extend([*kind, *way]),
            Call::Hold(way, int) => {
                out.push(*way);
                out.extend(int.to_le_bytes());
            }
            Call::Move(way, tag) => {
                out.push(*way);
                out.extend(u64::from(tag.cast_unsigned()).to_le_bytes());
            }
            Call::Offsets(n, a, b, flag) => {
                out.extend(n.to_le_bytes());
                out.extend(a.to_le_bytes());
                out.extend(b.to_le_bytes());
                out.push(u8::from(*flag));
            }
            Call::WriteBack(kind, a, b, flag) => {
                out.push(*kind);
                out.extend(a.to_le_bytes());
                out.extend(b.to_le_bytes());
                out.push(u8::from(*flag));
            }
            Call::Target(how, way, kind, a, b, flag) => {
                out.extend([*how, *way, *kind]);
                out.extend(a.to_le_bytes());
                out.extend(b.to_le_bytes());
                out.push(u8::from(*flag));
            }
            Call::Scope(steps) => {
                out.push(steps.len() as u8);
                steps.iter().for_each(|s| s.bytes(out));
            }
            Call::Write(way, s) => {
                out.push(*way);
                text(s, out);
            }
        }
    }
}

impl Recipe {
    pub fn bytes(&self) -> Vec<u8> {
        let mut out = vec![u8::from(self.keep)];
        self.x.bytes(&mut out);
        self.y.bytes(&mut out);
        out.push(self.writes.len() as u8);
        for (cell, v) in &self.writes {
            out.push(*cell);
            v.bytes(&mut out);
        }
        out.push(self.mark);
        self.call.bytes(&mut out);
        out
    }
}
