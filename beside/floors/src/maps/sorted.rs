//! One sorted list of keys with their values: for a dozen keys or so.

use super::front::{front_of, Key};
use super::Keyed;
use crate::value::Value;
use std::cmp::Ordering;

struct Entry {
    key: Key,
    value: Value,
}

/// A list that has room for `FIRST` entries with its first one.
pub struct Sorted<const FIRST: usize>(Vec<Entry>);

impl<const FIRST: usize> Sorted<FIRST> {
    /// The index of a key, or where it would be.
    #[inline(always)]
    fn place(&self, front: u64, text: &str) -> Result<usize, usize> {
        let mut place = self.0.partition_point(|entry| entry.key.front < front);
        while let Some(entry) = self.0.get(place) {
            match entry.key.order(front, text) {
                Ordering::Less => place += 1,
                Ordering::Equal => return Ok(place),
                Ordering::Greater => break,
            }
        }
        Err(place)
    }
}

impl<const FIRST: usize> Keyed for Sorted<FIRST> {
    fn new() -> Self {
        Sorted(Vec::new())
    }

    fn count(&self) -> usize {
        self.0.len()
    }

    #[inline(always)]
    fn get(&self, key: &str) -> Option<&Value> {
        let place = self.place(front_of(key.as_bytes()), key).ok()?;
        self.0.get(place).map(|entry| &entry.value)
    }

    #[inline(always)]
    fn insert(&mut self, text: String, value: Value) -> Result<Option<Value>, (String, Value)> {
        let front = front_of(text.as_bytes());
        match self.place(front, &text) {
            Ok(place) => Ok(Some(std::mem::replace(&mut self.0[place].value, value))),
            Err(place) => {
                let more = if self.0.is_empty() { FIRST } else { 1 };
                if self.0.try_reserve(more).is_err() {
                    return Err((text, value));
                }
                self.0.insert(place, Entry { key: Key { front, text }, value });
                Ok(None)
            }
        }
    }

    #[inline(always)]
    fn remove(&mut self, key: &str) -> Option<Value> {
        let place = self.place(front_of(key.as_bytes()), key).ok()?;
        Some(self.0.remove(place).value)
    }

    fn entries(&self) -> impl Iterator<Item = (&str, &Value)> {
        self.0.iter().map(|entry| (entry.key.text.as_str(), &entry.value))
    }

    fn copied(&self) -> Option<Self> {
        let mut copy = Vec::new();
        copy.try_reserve_exact(self.0.len()).ok()?;
        for Entry { key, value } in &self.0 {
            copy.push(Entry { key: Key { front: key.front, text: key.text.clone() }, value: value.copy()? });
        }
        Some(Sorted(copy))
    }
}
