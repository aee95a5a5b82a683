//! An index to slots that have the values: the standard library's ordered map, or a sorted list.

use super::Keyed;
use crate::value::Value;
use std::collections::BTreeMap;

/// Numbers of slots by keys.
pub trait Index: Clone {
    fn new() -> Self;
    fn count(&self) -> usize;
    fn get(&self, key: &str) -> Option<usize>;
    fn insert(&mut self, key: String, number: usize) -> Option<usize>;
    fn remove(&mut self, key: &str) -> Option<usize>;
    fn entries(&self) -> impl Iterator<Item = (&str, usize)>;
}

impl Index for BTreeMap<String, usize> {
    fn new() -> Self {
        BTreeMap::new()
    }

    fn count(&self) -> usize {
        self.len()
    }

    fn get(&self, key: &str) -> Option<usize> {
        self.get(key).copied()
    }

    fn insert(&mut self, key: String, number: usize) -> Option<usize> {
        self.insert(key, number)
    }

    fn remove(&mut self, key: &str) -> Option<usize> {
        self.remove(key)
    }

    fn entries(&self) -> impl Iterator<Item = (&str, usize)> {
        self.iter().map(|(key, number)| (key.as_str(), *number))
    }
}

/// A sorted list, with room for `FIRST` keys at first.
#[derive(Clone)]
pub struct List<const FIRST: usize>(Vec<(String, usize)>);

impl<const FIRST: usize> List<FIRST> {
    #[inline(always)]
    fn place(&self, key: &str) -> Result<usize, usize> {
        self.0.binary_search_by(|(own, _)| own.as_str().cmp(key))
    }
}

impl<const FIRST: usize> Index for List<FIRST> {
    fn new() -> Self {
        List(Vec::new())
    }

    fn count(&self) -> usize {
        self.0.len()
    }

    fn get(&self, key: &str) -> Option<usize> {
        self.place(key).ok().map(|place| self.0[place].1)
    }

    fn insert(&mut self, key: String, number: usize) -> Option<usize> {
        match self.place(&key) {
            Ok(place) => Some(std::mem::replace(&mut self.0[place].1, number)),
            Err(place) => {
                self.0.reserve(if self.0.is_empty() { FIRST } else { 1 });
                self.0.insert(place, (key, number));
                None
            }
        }
    }

    fn remove(&mut self, key: &str) -> Option<usize> {
        self.place(key).ok().map(|place| self.0.remove(place).1)
    }

    fn entries(&self) -> impl Iterator<Item = (&str, usize)> {
        self.0.iter().map(|(key, number)| (key.as_str(), *number))
    }
}

enum Slot {
    Vacant(usize),
    Taken(Value),
}

/// The vacant slots form a list.
pub struct Slots<I> {
    index: I,
    slots: Vec<Slot>,
    vacant: usize,
}

fn value_in(slot: Option<&Slot>) -> Option<&Value> {
    match slot? {
        Slot::Taken(value) => Some(value),
        Slot::Vacant(_) => None,
    }
}

impl<I: Index> Slots<I> {
    fn put(&mut self, value: Value) -> Result<usize, Value> {
        if let Some(slot) = self.slots.get_mut(self.vacant) {
            if let Slot::Vacant(next) = *slot {
                *slot = Slot::Taken(value);
                return Ok(std::mem::replace(&mut self.vacant, next));
            }
        }
        if self.slots.try_reserve(1).is_err() {
            return Err(value);
        }
        self.slots.push(Slot::Taken(value));
        Ok(self.slots.len() - 1)
    }

    fn vacate(&mut self, number: usize) -> Option<Value> {
        match std::mem::replace(self.slots.get_mut(number)?, Slot::Vacant(self.vacant)) {
            Slot::Taken(value) => {
                self.vacant = number;
                Some(value)
            }
            Slot::Vacant(_) => None,
        }
    }
}

impl<I: Index> Keyed for Slots<I> {
    fn new() -> Self {
        Slots { index: I::new(), slots: Vec::new(), vacant: usize::MAX }
    }

    fn count(&self) -> usize {
        self.index.count()
    }

    fn get(&self, key: &str) -> Option<&Value> {
        value_in(self.slots.get(self.index.get(key)?))
    }

    fn insert(&mut self, key: String, value: Value) -> Result<Option<Value>, (String, Value)> {
        match self.put(value) {
            Ok(number) => Ok(self.index.insert(key, number).and_then(|before| self.vacate(before))),
            Err(value) => Err((key, value)),
        }
    }

    fn remove(&mut self, key: &str) -> Option<Value> {
        let number = self.index.remove(key)?;
        self.vacate(number)
    }

    fn entries(&self) -> impl Iterator<Item = (&str, &Value)> {
        self.index.entries().filter_map(|(key, number)| Some((key, value_in(self.slots.get(number))?)))
    }

    /// The keys first: the C library joins its short free blocks when one of 1,024 bytes or more is allocated, as that of the slots.
    fn copied(&self) -> Option<Self> {
        let index = self.index.clone();
        let mut slots = Vec::new();
        slots.try_reserve_exact(self.slots.len()).ok()?;
        for slot in &self.slots {
            slots.push(match slot {
                Slot::Vacant(next) => Slot::Vacant(*next),
                Slot::Taken(value) => Slot::Taken(value.copy()?),
            });
        }
        Some(Slots { index, slots, vacant: self.vacant })
    }
}
