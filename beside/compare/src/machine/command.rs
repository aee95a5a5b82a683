//! Commands, and their lines: docs/LINES.md has each form.

use rhai::Token;
use std::fmt;

/// A type, by its place in `KINDS`.
#[derive(Clone, Copy, Debug, PartialEq, Eq)]
pub struct Kind(pub usize);

/// The names of types on lines.
pub const KINDS: [&str; 23] = [
    "()", "bool", "char", "i64", "u8", "u16", "u32", "u64", "u128", "i8", "i16", "i32", "i128", "String", "string", "array",
    "blob", "map", "Fn", "range", "rangeeq", "Dynamic", "<shared>",
];

impl fmt::Display for Kind {
    fn fmt(&self, f: &mut fmt::Formatter<'_>) -> fmt::Result {
        f.write_str(KINDS[self.0])
    }
}

/// A host number: its type, by its place in `HOSTS`, and its bits.
#[derive(Clone, Copy, Debug)]
pub struct Host(pub u8, pub u128);

pub const HOSTS: [&str; 9] = ["u8", "u16", "u32", "u64", "u128", "i8", "i16", "i32", "i128"];

impl fmt::Display for Host {
    fn fmt(&self, f: &mut fmt::Formatter<'_>) -> fmt::Result {
        let Self(kind, n) = *self;
        write!(f, "{} ", HOSTS[usize::from(kind)])?;
        match kind {
            0 => write!(f, "{}", n as u8),
            1 => write!(f, "{}", n as u16),
            2 => write!(f, "{}", n as u32),
            3 => write!(f, "{}", n as u64),
            4 => write!(f, "{n}"),
            5 => write!(f, "{}", n as i8),
            6 => write!(f, "{}", n as i16),
            7 => write!(f, "{}", n as i32),
            _ => write!(f, "{}", n as i128),
        }
    }
}

#[derive(Clone, Debug)]
pub enum Literal {
    Unit,
    Bool(bool),
    Int(i64),
    Char(char),
    Text(String),
    Blob(Vec<u8>),
    Host(Host),
    Range(i64, i64),
    RangeEq(i64, i64),
}

#[derive(Clone, Copy, Debug)]
pub enum Question {
    Tag,
    Variant,
    Shared,
    ReadOnly,
    Locked,
    TypeName,
    Held(Kind),
    Hashable,
    Is(Kind),
    Unit,
    Int,
    Bool,
    Char,
}

impl fmt::Display for Question {
    fn fmt(&self, f: &mut fmt::Formatter<'_>) -> fmt::Result {
        match self {
            Self::Tag => f.write_str("tag"),
            Self::Variant => f.write_str("variant"),
            Self::Shared => f.write_str("shared"),
            Self::ReadOnly => f.write_str("readonly"),
            Self::Locked => f.write_str("locked"),
            Self::TypeName => f.write_str("type"),
            Self::Held(kind) => write!(f, "held {kind}"),
            Self::Hashable => f.write_str("hashable"),
            Self::Is(kind) => write!(f, "is {kind}"),
            Self::Unit => f.write_str("unit"),
            Self::Int => f.write_str("int"),
            Self::Bool => f.write_str("bool"),
            Self::Char => f.write_str("char"),
        }
    }
}

#[derive(Clone, Copy, Debug)]
pub enum Scanner {
    Tags(i32),
    Zero,
    NoShare,
    Cut(usize),
}

impl fmt::Display for Scanner {
    fn fmt(&self, f: &mut fmt::Formatter<'_>) -> fmt::Result {
        match self {
            Self::Tags(tag) => write!(f, "tags {tag}"),
            Self::Zero => f.write_str("zero"),
            Self::NoShare => f.write_str("noshare"),
            Self::Cut(count) => write!(f, "cut {count}"),
        }
    }
}

#[derive(Clone, Debug)]
pub enum Place {
    Hand(usize),
    Entry(String),
}

impl fmt::Display for Place {
    fn fmt(&self, f: &mut fmt::Formatter<'_>) -> fmt::Result {
        match self {
            Self::Hand(i) => write!(f, "{i}"),
            Self::Entry(name) => write!(f, "@{name}"),
        }
    }
}

/// The commands of a world. Positions in the hand count from 0.
#[derive(Clone, Debug)]
pub enum Command {
    Put(Literal),
    MakeArray(usize),
    MakeMap(Vec<String>),
    MakeFn(String, usize),
    Copy(usize),
    Take(usize),
    Drop,
    Share(usize),
    Flatten(usize),
    FlattenClone(usize),
    Cast(usize, Kind),
    MakeReadOnly(usize),
    SetTag(usize, i32),
    Ask(usize, Question),
    WriteInt(usize, i64),
    Write(usize, usize),
    Binary(Token, usize, usize),
    Assign(Token, Place, usize),
    Scan(usize, Scanner),
    Push(String, usize),
    PushDynamic(String, usize),
    PushConstant(String, usize),
    SetEntry(String, usize),
    SetOrPush(String, usize),
    SetValue(String, usize),
    Pop,
    Rewind(usize),
    Clear,
    Len,
    IsEmpty,
    Contains(String),
    Search(String),
    IsConstant(String),
    Get(String),
    GetValue(String, Kind),
    GetRef(String, Kind),
    SetRef(String, i64),
    Remove(String, Kind),
    SetAlias(String, String),
    Aliases(String),
    KeepVisible,
    CopyScope,
    Entries,
    Names,
    Extend(Vec<String>),
    ExtendFlagged(Vec<(String, bool)>),
    ShowScope,
    HashScope,
    Mark(Place),
    Unmark(usize),
    WriteMarked(usize, usize),
    ReadMarked(usize),
    WriteBit(Place, u8, usize),
    WriteField(Place, i64, u8, usize),
    WriteByte(Place, usize, usize),
    WriteChar(Place, usize, usize),
    WriteSlice(Place, usize, usize, bool, usize),
    Offset(usize, i64, i64),
    Index(usize, i64, bool),
    Show(usize),
    Debug(usize),
    Hash(usize),
}

fn words(verb: &str, words: &[String], f: &mut fmt::Formatter<'_>) -> fmt::Result {
    f.write_str(verb)?;
    words.iter().try_for_each(|word| write!(f, " {word}"))
}

impl fmt::Display for Literal {
    fn fmt(&self, f: &mut fmt::Formatter<'_>) -> fmt::Result {
        match self {
            Self::Unit => f.write_str("unit"),
            Self::Bool(value) => write!(f, "bool {value}"),
            Self::Int(value) => write!(f, "int {value}"),
            Self::Char(value) => write!(f, "char {value}"),
            Self::Text(text) => write!(f, "text {text}"),
            Self::Blob(bytes) => {
                f.write_str(if bytes.is_empty() { "blob" } else { "blob " })?;
                bytes.iter().try_for_each(|byte| write!(f, "{byte:02x}"))
            }
            Self::Host(host) => write!(f, "host {host}"),
            Self::Range(start, end) => write!(f, "range {start} {end}"),
            Self::RangeEq(start, end) => write!(f, "rangeeq {start} {end}"),
        }
    }
}

impl fmt::Display for Command {
    fn fmt(&self, f: &mut fmt::Formatter<'_>) -> fmt::Result {
        match self {
            Self::Put(literal) => write!(f, "{literal}"),
            Self::MakeArray(count) => write!(f, "array {count}"),
            Self::MakeMap(keys) => words("map", keys, f),
            Self::MakeFn(name, count) => write!(f, "fn {name} {count}"),
            Self::Copy(i) => write!(f, "copy {i}"),
            Self::Take(i) => write!(f, "take {i}"),
            Self::Drop => f.write_str("drop"),
            Self::Share(i) => write!(f, "share {i}"),
            Self::Flatten(i) => write!(f, "flatten {i}"),
            Self::FlattenClone(i) => write!(f, "flatclone {i}"),
            Self::Cast(i, kind) => write!(f, "cast {i} {kind}"),
            Self::MakeReadOnly(i) => write!(f, "readonly {i}"),
            Self::SetTag(i, tag) => write!(f, "tag {i} {tag}"),
            Self::Ask(i, question) => write!(f, "ask {i} {question}"),
            Self::WriteInt(i, value) => write!(f, "write {i} {value}"),
            Self::Write(i, j) => write!(f, "store {i} {j}"),
            Self::Binary(op, i, j) => write!(f, "op {i} {} {j}", op.text()),
            Self::Assign(op, place, j) => write!(f, "assign {place} {} {j}", op.text()),
            Self::Scan(i, scanner) => write!(f, "scan {i} {scanner}"),
            Self::Push(name, i) => write!(f, "push {name} {i}"),
            Self::PushDynamic(name, i) => write!(f, "pushdyn {name} {i}"),
            Self::PushConstant(name, i) => write!(f, "pushconst {name} {i}"),
            Self::SetEntry(name, i) => write!(f, "set {name} {i}"),
            Self::SetOrPush(name, i) => write!(f, "setorpush {name} {i}"),
            Self::SetValue(name, i) => write!(f, "setvalue {name} {i}"),
            Self::Pop => f.write_str("pop"),
            Self::Rewind(count) => write!(f, "rewind {count}"),
            Self::Clear => f.write_str("clear"),
            Self::Len => f.write_str("len"),
            Self::IsEmpty => f.write_str("empty"),
            Self::Contains(name) => write!(f, "contains {name}"),
            Self::Search(name) => write!(f, "search {name}"),
            Self::IsConstant(name) => write!(f, "constant {name}"),
            Self::Get(name) => write!(f, "get {name}"),
            Self::GetValue(name, kind) => write!(f, "value {name} {kind}"),
            Self::GetRef(name, kind) => write!(f, "ref {name} {kind}"),
            Self::SetRef(name, value) => write!(f, "refint {name} {value}"),
            Self::Remove(name, kind) => write!(f, "remove {name} {kind}"),
            Self::SetAlias(name, alias) if alias.is_empty() => write!(f, "alias {name}"),
            Self::SetAlias(name, alias) => write!(f, "alias {name} {alias}"),
            Self::Aliases(name) => write!(f, "aliases {name}"),
            Self::KeepVisible => f.write_str("visible"),
            Self::CopyScope => f.write_str("copyscope"),
            Self::Entries => f.write_str("iter"),
            Self::Names => f.write_str("names"),
            Self::Extend(names) => words("extend", names, f),
            Self::ExtendFlagged(names) => {
                let flagged: Vec<_> =
                    names.iter().map(|(name, flag)| format!("{}{name}", if *flag { "!" } else { "" })).collect();
                words("extendflagged", &flagged, f)
            }
            Self::ShowScope => f.write_str("showscope"),
            Self::HashScope => f.write_str("hashscope"),
            Self::Mark(place) => write!(f, "mark {place}"),
            Self::Unmark(k) => write!(f, "unmark {k}"),
            Self::WriteMarked(k, i) => write!(f, "writemarked {k} {i}"),
            Self::ReadMarked(k) => write!(f, "readmarked {k}"),
            Self::WriteBit(place, bit, j) => write!(f, "bit {place} {bit} {j}"),
            Self::WriteField(place, mask, shift, j) => write!(f, "field {place} {mask} {shift} {j}"),
            Self::WriteByte(place, index, j) => write!(f, "byte {place} {index} {j}"),
            Self::WriteChar(place, index, j) => write!(f, "charat {place} {index} {j}"),
            Self::WriteSlice(place, start, end, true, j) => write!(f, "slice {place} {start} {end} {j}"),
            Self::WriteSlice(place, start, end, false, j) => write!(f, "sliceeq {place} {start} {end} {j}"),
            Self::Offset(length, start, len) => write!(f, "offset {length} {start} {len}"),
            Self::Index(length, index, from_end) => write!(f, "index {length} {index} {from_end}"),
            Self::Show(i) => write!(f, "show {i}"),
            Self::Debug(i) => write!(f, "debug {i}"),
            Self::Hash(i) => write!(f, "hash {i}"),
        }
    }
}
