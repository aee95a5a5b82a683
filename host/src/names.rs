//! Names by number, and places.
use crate::error::{done, Error};
use crate::sys::{self, Told};
use crate::world::World;
use std::sync::atomic::{AtomicU64, Ordering};

/// A name that was passed to a world. Another world refuses it, and so does its own once it is
/// forgotten, even if its number then belongs to another name.
#[derive(Clone, Copy, Debug, PartialEq, Eq, PartialOrd, Ord, Hash)]
pub struct Name {
    number: usize,
    serial: u64,
}

/// What a command writes to.
#[derive(Clone, Copy, Debug, PartialEq, Eq, PartialOrd, Ord, Hash)]
#[non_exhaustive]
pub enum Place {
    /// The value at a hand position.
    Hand(usize),
    /// The value of the newest entry with a name. A constant is refused.
    Entry(Name),
}

/// The name behind each number: its serial, which no other name of this process has or had; 0 means
/// none.
#[derive(Default)]
pub(crate) struct Serials(Vec<u64>);

impl Serials {
    /// Reserves capacity for one more name.
    fn reserve(&mut self) -> Result<(), Error> {
        Ok(self.0.try_reserve(1)?)
    }

    /// Assigns the number to a new name. Its capacity is reserved, and all smaller numbers were
    /// assigned before.
    fn give(&mut self, number: usize) -> Result<Name, Error> {
        static LAST: AtomicU64 = AtomicU64::new(0);
        let serial = LAST.fetch_add(1, Ordering::Relaxed) + 1;
        if number == self.0.len() {
            self.0.push(serial);
        } else {
            *self.0.get_mut(number).ok_or(Error::Unexpected)? = serial;
        }
        Ok(Name { number, serial })
    }

    fn take(&mut self, name: Name) {
        if let Some(place) = self.0.get_mut(name.number) {
            *place = 0;
        }
    }

    /// Returns the number of a name, if it is one of these.
    #[inline]
    pub(crate) fn number(&self, name: Name) -> Result<usize, Error> {
        match self.0.get(name.number) {
            Some(serial) if *serial == name.serial => Ok(name.number),
            Some(_) | None => Err(Error::NoName),
        }
    }

    /// Returns whether a place is an entry, and its number.
    #[inline]
    pub(crate) fn place(&self, place: Place) -> Result<(bool, usize), Error> {
        match place {
            Place::Hand(at) => Ok((false, at)),
            Place::Entry(name) => Ok((true, self.number(name)?)),
        }
    }

    pub(crate) fn numbers(&self, names: impl ExactSizeIterator<Item = Name>) -> Result<Vec<usize>, Error> {
        let mut numbers = Vec::new();
        numbers.try_reserve_exact(names.len())?;
        for name in names {
            numbers.push(self.number(name)?);
        }
        Ok(numbers)
    }
}

impl World {
    /// Passes a name to this world, for use in its commands.
    ///
    /// ```
    /// use rhai_world::{Error, Limits, World};
    ///
    /// let mut world = World::new(Limits::default())?;
    /// let x = world.name("x")?;
    /// world.forget_name(x)?;
    /// let y = world.name("y")?;
    /// assert_eq!(world.contains(x), Err(Error::NoName));
    /// assert_eq!(world.contains(y), Ok(false));
    /// # Ok::<(), Error>(())
    /// ```
    pub fn name(&mut self, name: &str) -> Result<Name, Error> {
        self.names.reserve()?;
        let mut number = 0;
        done(sys::name(&self.handle, name.as_bytes(), &mut number))?;
        self.names.give(number)
    }

    /// Returns the text of a name.
    pub fn name_text(&self, name: Name) -> Result<String, Error> {
        let number = self.names.number(name)?;
        let mut told = Told::default();
        let status = sys::name_text(&self.handle, number, &mut told);
        self.text(status, &told)
    }

    /// Forgets a name: this world refuses it from now on.
    pub fn forget_name(&mut self, name: Name) -> Result<(), Error> {
        let number = self.names.number(name)?;
        done(sys::forget_name(&self.handle, number))?;
        self.names.take(name);
        Ok(())
    }
}
