//! The values of a snapshot.
use crate::value::Value;
use std::fmt;
use std::iter::FusedIterator;

/// A value of a snapshot without the values inside, which follow it.
#[derive(Clone, Debug, PartialEq, Eq, Hash)]
pub(super) struct Part {
    /// Its key, if it is in a map.
    pub(super) key: String,
    pub(super) is_constant: bool,
    pub(super) tag: i32,
    pub(super) content: Content,
    /// The number of parts that it and the values inside take.
    pub(super) size: usize,
}

/// What a part is; a container has the number of values inside.
#[derive(Clone, Debug, PartialEq, Eq, Hash)]
pub(super) enum Content {
    /// A value without values inside.
    Plain(Value),
    Array(usize),
    Map(usize),
    FnPtr(String, usize),
    Cell(usize),
    Closed,
}

/// A value in a [`Snapshot`](crate::Snapshot). Two are equal if all their parts are, with cells by
/// their numbers.
#[derive(Clone, Copy, PartialEq, Eq, Hash)]
pub struct Seen<'a> {
    /// Its part, then those of the values inside.
    parts: &'a [Part],
}

/// What a value of a [`Snapshot`](crate::Snapshot) is.
#[derive(Clone, Debug, PartialEq, Eq, Hash)]
#[non_exhaustive]
pub enum Shape<'a> {
    /// The unit value.
    Unit,
    /// A boolean.
    Bool(bool),
    /// An int.
    Int(i64),
    /// A character.
    Char(char),
    /// A text.
    Text(&'a str),
    /// Bytes.
    Blob(&'a [u8]),
    /// Values in order.
    Array(SeenItems<'a>),
    /// Values by keys.
    Map(SeenFields<'a>),
    /// A function's name, and its curried values.
    FnPtr(&'a str, SeenItems<'a>),
    /// A number of another type, or a range: see its text by `to_string`.
    Other(&'a Value),
    /// A holder of the cell with this number.
    Cell(usize),
    /// A holder of a cell that is in use, so that its content can't be seen.
    Closed,
}

impl<'a> Seen<'a> {
    /// Takes the value whose part is the first of these.
    pub(super) fn new(parts: &'a [Part]) -> Seen<'a> {
        let size = parts.first().map_or(0, |part| part.size);
        Seen { parts: parts.get(..size).unwrap_or_default() }
    }

    /// Returns what it is.
    pub fn shape(&self) -> Shape<'a> {
        let Some((first, inside)) = self.parts.split_first() else {
            return Shape::Closed;
        };
        match &first.content {
            Content::Plain(value) => plain(value),
            Content::Array(count) => Shape::Array(SeenItems { parts: inside, count: *count }),
            Content::Map(count) => Shape::Map(SeenFields { items: SeenItems { parts: inside, count: *count } }),
            Content::FnPtr(name, count) => Shape::FnPtr(name, SeenItems { parts: inside, count: *count }),
            Content::Cell(number) => Shape::Cell(*number),
            Content::Closed => Shape::Closed,
        }
    }

    /// Returns whether it is a constant.
    pub fn is_constant(&self) -> bool {
        self.parts.first().is_some_and(|part| part.is_constant)
    }

    /// Returns its tag; 0 if it has none.
    pub fn tag(&self) -> i32 {
        self.parts.first().map_or(0, |part| part.tag)
    }

    /// Returns its key, if it is in a map, or an empty text.
    pub fn key(&self) -> &'a str {
        self.parts.first().map_or("", |part| &part.key)
    }

    /// Iterates over it and all values inside, each before those inside of it. Contents of cells
    /// aren't inside.
    pub fn walk(&self) -> impl ExactSizeIterator<Item = Seen<'a>> + use<'a> {
        let parts = self.parts;
        (0..parts.len()).map(move |at| Seen::new(parts.get(at..).unwrap_or_default()))
    }
}

impl fmt::Debug for Seen<'_> {
    fn fmt(&self, f: &mut fmt::Formatter<'_>) -> fmt::Result {
        f.debug_struct("Seen").field("first", &self.parts.first()).field("size", &self.parts.len()).finish()
    }
}

fn plain(value: &Value) -> Shape<'_> {
    match value {
        Value::Unit => Shape::Unit,
        Value::Bool(truth) => Shape::Bool(*truth),
        Value::Int(n) => Shape::Int(*n),
        Value::Char(character) => Shape::Char(*character),
        Value::Text(text) => Shape::Text(text),
        Value::Blob(bytes) => Shape::Blob(bytes),
        other => Shape::Other(other),
    }
}

/// The values inside of an array, or the curried values of a function pointer, in order.
#[derive(Clone, PartialEq, Eq, Hash)]
pub struct SeenItems<'a> {
    parts: &'a [Part],
    count: usize,
}

impl<'a> Iterator for SeenItems<'a> {
    type Item = Seen<'a>;

    fn next(&mut self) -> Option<Seen<'a>> {
        self.count = self.count.checked_sub(1)?;
        let item = Seen::new(self.parts);
        self.parts = self.parts.get(item.parts.len()..).unwrap_or_default();
        Some(item)
    }

    fn size_hint(&self) -> (usize, Option<usize>) {
        (self.count, Some(self.count))
    }
}

impl ExactSizeIterator for SeenItems<'_> {}

impl FusedIterator for SeenItems<'_> {}

impl fmt::Debug for SeenItems<'_> {
    fn fmt(&self, f: &mut fmt::Formatter<'_>) -> fmt::Result {
        f.debug_struct("SeenItems").field("len", &self.count).finish_non_exhaustive()
    }
}

/// The values inside of a map, each with its key, in the order of the keys.
#[derive(Clone, PartialEq, Eq, Hash)]
pub struct SeenFields<'a> {
    items: SeenItems<'a>,
}

impl<'a> Iterator for SeenFields<'a> {
    type Item = (&'a str, Seen<'a>);

    fn next(&mut self) -> Option<(&'a str, Seen<'a>)> {
        self.items.next().map(|value| (value.key(), value))
    }

    fn size_hint(&self) -> (usize, Option<usize>) {
        self.items.size_hint()
    }
}

impl ExactSizeIterator for SeenFields<'_> {}

impl FusedIterator for SeenFields<'_> {}

impl fmt::Debug for SeenFields<'_> {
    fn fmt(&self, f: &mut fmt::Formatter<'_>) -> fmt::Result {
        f.debug_struct("SeenFields").field("len", &self.items.count).finish_non_exhaustive()
    }
}
