//! A world: opening and closing, and its calls on lists, lines and cells.
use crate::answer::Answer;
use crate::error::{done, Error};
use crate::limits::Limits;
use crate::names::{Name, Serials};
use crate::sys::{self, Handle, ScriptEnd, Told};
use std::fmt;

/// A store of shared cells, named values, and a hand: a list of values that commands name by
/// position. It is closed when it is dropped.
///
/// Each method executes one command. Its error says why the command failed, and leaves the world
/// unchanged. A method that only reads takes `&self`.
///
/// A world stays on the thread that made it. To pass data to another thread, use a
/// [`Value`](crate::Value):
///
/// ```
/// use rhai_world::{Limits, Value, World};
///
/// let thread = std::thread::spawn(|| {
///     let mut world = World::new(Limits::default())?;
///     world.put_int(7)?;
///     world.value(0)
/// });
/// assert_eq!(thread.join().unwrap(), Ok(Some(Value::Int(7))));
/// ```
///
/// ```compile_fail,E0277
/// let mut world = rhai_world::World::new(rhai_world::Limits::default()).unwrap();
/// std::thread::spawn(move || world.put_int(7));
/// ```
///
/// ```compile_fail,E0277
/// let world = rhai_world::World::new(rhai_world::Limits::default()).unwrap();
/// std::thread::scope(|scope| scope.spawn(|| world.hand_len()).join());
/// ```
pub struct World {
    pub(crate) handle: Handle,
    pub(crate) names: Serials,
}

impl World {
    /// Opens a world with these limits.
    pub fn new(limits: Limits) -> Result<World, Error> {
        sys::stamp();
        if !Handle::fits() {
            return Err(Error::OtherLibrary);
        }
        let world = World { handle: Handle::closed(), names: Serials::default() };
        world.handle.account().set_cap(limits.memory);
        let (text, items) = limits.numbers();
        done(sys::new(&world.handle, text, items))?;
        Ok(world)
    }

    /// Appends a text.
    pub fn put_text(&mut self, text: &str) -> Result<(), Error> {
        let mut told = Told::default();
        let status = sys::put_text(&self.handle, text.as_bytes(), &mut told);
        self.done(status, &told)
    }

    /// Appends a blob.
    pub fn put_blob(&mut self, bytes: &[u8]) -> Result<(), Error> {
        let mut told = Told::default();
        let status = sys::put_blob(&self.handle, bytes, &mut told);
        self.done(status, &told)
    }

    /// Gives the newest entry with the name this alias, unless it has it; an empty alias means the
    /// name itself.
    pub fn set_alias(&mut self, name: Name, alias: &str) -> Result<(), Error> {
        let number = self.names.number(name)?;
        let mut told = Told::default();
        let status = sys::set_alias(&self.handle, number, alias.as_bytes(), &mut told);
        self.done(status, &told)
    }

    /// Removes as many values from the end of the hand as there are keys, and appends the map from
    /// the keys to these values, in order; for duplicate keys the last value counts.
    pub fn make_map(&mut self, keys: &[Name]) -> Result<(), Error> {
        let keys = self.names.numbers(keys.iter().copied())?;
        let mut told = Told::default();
        let status = sys::make_map(&self.handle, &keys, &mut told);
        self.done(status, &told)
    }

    /// Removes as many values from the end of the hand as there are names, and adds a writable
    /// entry for each name and value.
    pub fn extend(&mut self, names: &[Name]) -> Result<(), Error> {
        let names = self.names.numbers(names.iter().copied())?;
        let mut told = Told::default();
        let status = sys::extend(&self.handle, &names, &mut told);
        self.done(status, &told)
    }

    /// Removes as many values from the end of the hand as there are names, and adds an entry for
    /// each name and value; it is a constant if its flag is set.
    pub fn extend_flagged(&mut self, names: &[(Name, bool)]) -> Result<(), Error> {
        let mut constants = Vec::new();
        constants.try_reserve_exact(names.len())?;
        constants.extend(names.iter().map(|(_, is_constant)| *is_constant));
        let names = self.names.numbers(names.iter().map(|(name, _)| *name))?;
        let mut told = Told::default();
        let status = sys::extend_flagged(&self.handle, &names, &constants, &mut told);
        self.done(status, &told)
    }

    /// Executes the command of a line, as in `docs/LINES.md`. The program for lines reads the same
    /// lines.
    pub fn line(&mut self, line: &str) -> Result<Answer, Error> {
        let mut told = Told::default();
        let status = sys::line(&self.handle, line.as_bytes(), &mut told);
        self.answer(status, &told)
    }

    /// Runs lines on a new world, and returns what they print; this world is unchanged.
    pub fn run_lines(&self, input: &[u8]) -> Result<Vec<u8>, Error> {
        let mut told = Told::default();
        let status = sys::run_lines(&self.handle, input, &mut told);
        self.bytes(status, &told)
    }

    /// Frees each unreachable cell.
    pub fn collect(&mut self) -> Result<(), Error> {
        done(sys::collect(&self.handle))
    }

    /// Returns the number of values in the hand.
    pub fn hand_len(&self) -> usize {
        sys::hand_len(&self.handle)
    }

    /// Runs a script on values of its own, and returns how it ended, what it printed, and its
    /// error; this world is unchanged.
    pub(crate) fn run_script(
        &self,
        script: &str,
        operations: u64,
        limits: Limits,
        calls: usize,
    ) -> Result<(ScriptEnd, String, String), Error> {
        let mut end = ScriptEnd::default();
        let (text, items) = limits.numbers();
        done(sys::run_script(&self.handle, script.as_bytes(), text, items, operations, calls, &mut end))?;
        let mut printed = self.text_of(false, (end.printed + end.said) as u64)?;
        let why = copied(printed.get(end.printed..).ok_or(Error::Unexpected)?)?;
        printed.truncate(end.printed);
        Ok((end, printed, why))
    }

    /// Returns the name of the entry at this position, counted from the oldest, and whether it is a
    /// constant.
    pub(crate) fn entry(&self, i: usize) -> Result<(String, bool), Error> {
        let mut is_constant = false;
        let mut told = Told::default();
        let status = sys::entry(&self.handle, i, &mut is_constant, &mut told);
        Ok((self.text(status, &told)?, is_constant))
    }
}

/// Copies a text; fails if the allocation fails.
pub(crate) fn copied(text: &str) -> Result<String, Error> {
    let mut copy = String::new();
    copy.try_reserve_exact(text.len())?;
    copy.push_str(text);
    Ok(copy)
}

impl Drop for World {
    fn drop(&mut self) {
        sys::close(&self.handle);
        debug_assert_eq!(self.memory().held, 0, "a closed world holds memory");
    }
}

impl fmt::Debug for World {
    fn fmt(&self, f: &mut fmt::Formatter<'_>) -> fmt::Result {
        f.debug_struct("World")
            .field("is_open", &sys::is_open(&self.handle))
            .field("hand_len", &self.hand_len())
            .finish_non_exhaustive()
    }
}
