//! Builds values from their heads.
use super::head::Head;
use super::{Array, Map, Value};
use crate::error::Error;
use crate::world::copied;

/// A value being built: the containers that still lack values, outermost first.
#[derive(Default)]
pub(crate) struct Builder {
    open: Vec<Open>,
    whole: Option<Value>,
}

struct Open {
    key: String,
    shell: Shell,
    left: usize,
}

/// A container.
enum Shell {
    Array(Vec<Value>),
    Map(Vec<(String, Value)>),
    FnPtr(String, Vec<Value>),
}

impl Shell {
    fn add(&mut self, key: String, value: Value) {
        match self {
            Shell::Array(items) | Shell::FnPtr(_, items) => items.push(value),
            Shell::Map(fields) => fields.push((key, value)),
        }
    }

    fn into_value(self) -> Value {
        match self {
            Shell::Array(items) => Value::Array(Array::from(items)),
            Shell::Map(fields) => Value::Map(Map::of_fields(fields)),
            Shell::FnPtr(name, curried) => Value::FnPtr(name, Array::from(curried)),
        }
    }
}

impl Builder {
    /// Returns the value, once it is complete.
    pub(crate) fn whole(self) -> Option<Value> {
        self.whole
    }

    pub(crate) fn is_whole(&self) -> bool {
        self.whole.is_some()
    }

    /// Whether the next value is in a map.
    pub(crate) fn wants_key(&self) -> bool {
        self.open.last().is_some_and(|top| matches!(top.shell, Shell::Map(_)))
    }

    /// Adds the next value. Its children follow it.
    pub(crate) fn add(&mut self, key: &str, head: Head<'_>) -> Result<(), Error> {
        let key = copied(key)?;
        match head {
            Head::Array(count) => self.open(key, Shell::Array(room(count)?), count),
            Head::Map(count) => self.open(key, Shell::Map(room(count)?), count),
            Head::FnPtr(name, count) => self.open(key, Shell::FnPtr(copied(name)?, room(count)?), count),
            Head::Leaf(leaf) => {
                self.close(key, leaf.value()?);
                Ok(())
            }
        }
    }

    fn open(&mut self, key: String, shell: Shell, left: usize) -> Result<(), Error> {
        if left == 0 {
            self.close(key, shell.into_value());
            return Ok(());
        }
        self.open.try_reserve(1)?;
        self.open.push(Open { key, shell, left });
        Ok(())
    }

    /// Puts a complete value into its container, and each container that this completes into its
    /// own.
    fn close(&mut self, key: String, value: Value) {
        let (mut key, mut value) = (key, value);
        while let Some(mut top) = self.open.pop() {
            top.shell.add(key, value);
            top.left -= 1;
            if top.left > 0 {
                // (its capacity is still there)
                self.open.push(top);
                return;
            }
            (key, value) = (top.key, top.shell.into_value());
        }
        self.whole = Some(value);
    }
}

fn room<T>(count: usize) -> Result<Vec<T>, Error> {
    let mut room = Vec::new();
    room.try_reserve_exact(count)?;
    Ok(room)
}
