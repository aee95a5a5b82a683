//! Reads snapshots from the bytes of the library.
use super::seen::{Content, Part};
use super::{Active, Snapshot, Variable};
use crate::engine::CallPlace;
use crate::error::Error;
use crate::value::head::Head;
use crate::value::read::Reader;
use crate::world::copied;

/// The kind of a holder, before the number of its cell.
const CELL: u8 = 10;

/// The kind of a holder whose cell can't be seen.
const CLOSED: u8 = 11;

/// The byte before a value with a tag, or that is a constant.
const LABEL: u8 = 12;

impl Snapshot {
    /// Reads a snapshot.
    ///
    /// Errors: an allocation fails; `Error::Unexpected` if the bytes are no snapshot.
    pub(crate) fn of_bytes(bytes: &[u8]) -> Result<Snapshot, Error> {
        let mut reading = Reading { left: Reader { bytes }, parts: Vec::new(), reached: 0 };
        let (mut calls, mut variables, mut hand, mut marks) = (None, Vec::new(), None, 0);
        match reading.byte()? {
            0 => variables = reading.variables()?,
            1 => calls = Some(reading.calls()?),
            2 => {
                marks = reading.marks()?;
                (variables, hand) = (reading.variables()?, Some(reading.hand()?));
                // (its entries are told from the newest to the oldest)
                variables.reverse();
            }
            _ => return Err(Error::Unexpected),
        }
        let mut cells = Vec::new();
        while cells.len() < reading.reached {
            let content = reading.value()?;
            push(&mut cells, content)?;
        }
        if reading.left.bytes.is_empty() {
            Ok(Snapshot { parts: reading.parts, calls, variables, hand, marks, cells })
        } else {
            Err(Error::Unexpected)
        }
    }

    /// Whether it is one of a scope.
    pub(super) fn is_of_scope(&self) -> bool {
        self.calls.is_none() && self.hand.is_none()
    }
}

fn push<T>(list: &mut Vec<T>, item: T) -> Result<(), Error> {
    list.try_reserve(1)?;
    list.push(item);
    Ok(())
}

/// A container that lacks values.
struct Open {
    at: usize,
    left: usize,
    is_map: bool,
}

/// A snapshot being read.
struct Reading<'a> {
    left: Reader<'a>,
    parts: Vec<Part>,
    /// The number of cells that values have named so far.
    reached: usize,
}

impl Reading<'_> {
    fn byte(&mut self) -> Result<u8, Error> {
        self.left.byte().ok_or(Error::Unexpected)
    }

    /// Reads whether another item follows.
    fn goes_on(&mut self) -> Result<bool, Error> {
        match self.byte()? {
            0 => Ok(false),
            1 => Ok(true),
            _ => Err(Error::Unexpected),
        }
    }

    fn text(&mut self) -> Result<String, Error> {
        copied(self.left.text().ok_or(Error::Unexpected)?)
    }

    /// Reads a line or a column.
    fn coordinate(&mut self) -> Result<u32, Error> {
        let number = self.left.count().ok_or(Error::Unexpected)?;
        u32::try_from(number).map_err(|_| Error::Unexpected)
    }

    fn calls(&mut self) -> Result<Vec<Active>, Error> {
        let mut calls = Vec::new();
        while self.goes_on()? {
            let place = CallPlace { function: self.text()?, line: self.coordinate()?, column: self.coordinate()? };
            let variables = self.variables()?;
            push(&mut calls, Active { place, variables })?;
        }
        Ok(calls)
    }

    fn variables(&mut self) -> Result<Vec<Variable>, Error> {
        let mut variables = Vec::new();
        while self.goes_on()? {
            let variable = Variable { name: self.text()?, value: self.value()? };
            push(&mut variables, variable)?;
        }
        Ok(variables)
    }

    /// Counts the marks; the first cells are theirs.
    fn marks(&mut self) -> Result<usize, Error> {
        while self.goes_on()? {
            self.reached += 1;
        }
        Ok(self.reached)
    }

    fn hand(&mut self) -> Result<Vec<usize>, Error> {
        let mut hand = Vec::new();
        while self.goes_on()? {
            let value = self.value()?;
            push(&mut hand, value)?;
        }
        Ok(hand)
    }

    /// Reads a value, and returns where its parts begin. Containers that lack values are in a list,
    /// so that nesting takes no stack.
    fn value(&mut self) -> Result<usize, Error> {
        let (first, mut open) = (self.parts.len(), Vec::<Open>::new());
        loop {
            let key = if open.last().is_some_and(|top| top.is_map) { self.text()? } else { String::new() };
            let (at, part) = (self.parts.len(), self.part(key)?);
            let (left, is_map) = match part.content {
                Content::Array(count) | Content::FnPtr(_, count) => (count, false),
                Content::Map(count) => (count, true),
                Content::Plain(_) | Content::Cell(_) | Content::Closed => (0, false),
            };
            push(&mut self.parts, part)?;
            if left > 0 {
                push(&mut open, Open { at, left, is_map })?;
                continue;
            }
            self.close(&mut open);
            if open.is_empty() {
                return Ok(first);
            }
        }
    }

    /// Closes each container that the last value completes.
    fn close(&mut self, open: &mut Vec<Open>) {
        let end = self.parts.len();
        while let Some(top) = open.last_mut() {
            top.left -= 1;
            if top.left > 0 {
                return;
            }
            if let Some(part) = self.parts.get_mut(top.at) {
                part.size = end - top.at;
            }
            open.pop();
        }
    }

    /// Reads a value without the values inside.
    fn part(&mut self, key: String) -> Result<Part, Error> {
        let mut kind = self.byte()?;
        let (mut is_constant, mut tag) = (false, 0);
        if kind == LABEL {
            is_constant = self.goes_on()?;
            tag = i32::from_le_bytes(self.left.array().ok_or(Error::Unexpected)?);
            kind = self.byte()?;
        }
        let content = match kind {
            CELL => Content::Cell(self.cell()?),
            CLOSED => Content::Closed,
            kind => match self.left.head_of(kind).ok_or(Error::Unexpected)? {
                Head::Leaf(leaf) => Content::Plain(leaf.value()?),
                Head::Array(count) => Content::Array(count),
                Head::Map(count) => Content::Map(count),
                Head::FnPtr(name, count) => Content::FnPtr(copied(name)?, count),
            },
        };
        Ok(Part { key, is_constant, tag, content, size: 1 })
    }

    /// Reads the number of a cell: one that was named before, or the next one.
    fn cell(&mut self) -> Result<usize, Error> {
        let number = self.left.count().ok_or(Error::Unexpected)?;
        if number > self.reached {
            return Err(Error::Unexpected);
        }
        self.reached = self.reached.max(number + 1);
        Ok(number)
    }
}

#[cfg(test)]
mod tests;
