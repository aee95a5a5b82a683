//! Views of a whole hand and a whole scope.
use crate::error::{done, Error};
use crate::sys::{self, Told};
use crate::value::Value;
use crate::world::World;
use std::iter::FusedIterator;

/// The values of a hand, in order, without their holders.
#[derive(Clone, Debug)]
pub struct Hand<'a> {
    world: &'a World,
    next: usize,
    end: usize,
}

impl Iterator for Hand<'_> {
    type Item = Result<Option<Value>, Error>;

    fn next(&mut self) -> Option<Self::Item> {
        if self.next == self.end {
            return None;
        }
        self.next += 1;
        Some(self.world.value(self.next - 1))
    }

    fn size_hint(&self) -> (usize, Option<usize>) {
        let left = self.end - self.next;
        (left, Some(left))
    }
}

impl DoubleEndedIterator for Hand<'_> {
    fn next_back(&mut self) -> Option<Self::Item> {
        if self.next == self.end {
            return None;
        }
        self.end -= 1;
        Some(self.world.value(self.end))
    }
}

impl ExactSizeIterator for Hand<'_> {}

impl FusedIterator for Hand<'_> {}

/// An entry of a scope, with its value as `World::value` returns it.
#[derive(Clone, Debug, PartialEq, Eq, Hash)]
#[non_exhaustive]
pub struct Entry {
    /// Its name.
    pub name: String,
    /// Whether it is a constant; a holder is one if the held value is.
    pub is_constant: bool,
    /// Its value without its holders; `None` if it contains itself.
    pub value: Option<Value>,
}

/// The entries of a scope, from the oldest to the newest.
#[derive(Clone, Debug)]
pub struct Entries {
    left: std::vec::IntoIter<Entry>,
}

impl Iterator for Entries {
    type Item = Entry;

    fn next(&mut self) -> Option<Entry> {
        self.left.next()
    }

    fn size_hint(&self) -> (usize, Option<usize>) {
        self.left.size_hint()
    }
}

impl DoubleEndedIterator for Entries {
    fn next_back(&mut self) -> Option<Entry> {
        self.left.next_back()
    }
}

impl ExactSizeIterator for Entries {}

impl FusedIterator for Entries {}

impl World {
    /// Returns the values of the hand, each as by `value`.
    pub fn hand(&self) -> Hand<'_> {
        Hand { world: self, next: 0, end: self.hand_len() }
    }

    /// Returns the entries of the scope, oldest first.
    ///
    /// ```
    /// use rhai_world::{Limits, Value, World};
    ///
    /// let mut world = World::new(Limits::default())?;
    /// let x = world.name("x")?;
    /// world.put_int(7)?;
    /// world.push_constant(x, 0)?;
    /// for entry in world.scope()? {
    ///     assert_eq!((entry.name.as_str(), entry.is_constant), ("x", true));
    ///     assert_eq!(entry.value, Some(Value::Int(7)));
    /// }
    /// # Ok::<(), rhai_world::Error>(())
    /// ```
    pub fn scope(&self) -> Result<Entries, Error> {
        let before = self.hand_len();
        let mut told = Told::default();
        let status = sys::entries(&self.handle, &mut told);
        let entries = self.done(status, &told).and_then(|()| self.entries_from(before));
        while self.hand_len() > before {
            done(sys::drop(&self.handle, &mut told))?;
        }
        Ok(Entries { left: entries?.into_iter() })
    }

    /// Returns the entries, whose values are in the hand from this position on.
    fn entries_from(&self, first: usize) -> Result<Vec<Entry>, Error> {
        let count = self.hand_len() - first;
        let mut entries = Vec::new();
        entries.try_reserve_exact(count)?;
        for i in 0..count {
            let (name, is_constant) = self.entry(i)?;
            entries.push(Entry { name, is_constant, value: self.value(first + i)? });
        }
        Ok(entries)
    }
}
