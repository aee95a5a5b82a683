//! How much memory a world holds.
use crate::sys::Handle;
use crate::world::World;
use std::num::NonZeroUsize;

/// How many bytes of memory a world holds. Memory of the program itself, as each
/// [`Value`](crate::Value) and each returned text, doesn't count.
#[derive(Clone, Copy, Debug, Default, PartialEq, Eq, Hash)]
#[non_exhaustive]
pub struct Memory {
    /// The bytes held now, for its values, names, scripts and last result.
    pub held: usize,
    /// The most bytes that were held at any time.
    pub most: usize,
}

impl Memory {
    pub(crate) fn of(handle: &Handle) -> Memory {
        let account = handle.account();
        Memory { held: account.held(), most: account.most() }
    }
}

impl World {
    /// Returns how much memory this world holds.
    pub fn memory(&self) -> Memory {
        Memory::of(&self.handle)
    }

    /// Limits how much memory this world may hold; `None` means no limit. A call that would exceed
    /// the limit fails with [`Error::OutOfMemory`], and nothing changes. What is already held is
    /// kept, even if it is more. Other worlds are not affected.
    ///
    /// A block counts as the size that C's `malloc` gave it, so the last block may pass the limit
    /// by the rounding. If the C library doesn't report sizes, it counts as the requested bytes
    /// plus 16.
    ///
    /// ```
    /// use rhai_world::{Error, Limits, World};
    /// use std::num::NonZeroUsize;
    ///
    /// let mut world = World::new(Limits::default())?;
    /// world.set_max_memory(NonZeroUsize::new(1_000_000));
    /// assert_eq!(world.put_text(&"long".repeat(1_000_000)), Err(Error::OutOfMemory));
    /// world.put_text("short")?;
    /// assert!(world.memory().held < 1_000_000);
    /// # Ok::<(), Error>(())
    /// ```
    ///
    /// [`Error::OutOfMemory`]: crate::Error::OutOfMemory
    pub fn set_max_memory(&mut self, bytes: Option<NonZeroUsize>) {
        self.handle.account().set_cap(bytes);
    }
}

#[cfg(test)]
mod tests {
    use crate::error::Error;
    use crate::limits::Limits;
    use crate::sys;
    use crate::value::Value;
    use crate::world::World;
    use std::num::NonZeroUsize;

    fn used(limits: Limits) -> Result<World, Error> {
        let mut world = World::new(limits)?;
        let x = world.name("a name that is longer than twenty-four bytes")?;
        let text = Value::from("a text that is longer than twenty-four bytes");
        world.put(&Value::from(vec![
            text.clone(),
            Value::from(vec![7_u8; 1_000]),
            Value::from([("k".to_owned(), text)].map(|(key, value)| vec![Value::from(key), value])),
        ]))?;
        world.share(0)?;
        world.push(x, 0)?;
        world.debug(0)?;
        world.run_lines(b"text some text\nshow 0\n")?;
        world.run_script("let t = \"text\"; let f = |n| t += n; f.call(1); print(t); t.nowhere()", 1_000, limits, 10)?;
        Ok(world)
    }

    #[test]
    fn a_closed_world_has_given_all_back() -> Result<(), Error> {
        let world = used(Limits::default())?;
        assert!(world.memory().held > 1_000);
        sys::close(&world.handle);
        assert_eq!(world.memory().held, 0);
        Ok(())
    }

    #[test]
    fn so_has_one_that_was_refused_more() {
        let mut refused = 0;
        for bytes in (0..40_000).step_by(250) {
            let limits = Limits::new().with_memory(NonZeroUsize::new(bytes));
            match used(limits) {
                Ok(world) => {
                    sys::close(&world.handle);
                    assert_eq!(world.memory().held, 0);
                }
                Err(error) => {
                    assert_eq!(error, Error::OutOfMemory);
                    refused += 1;
                }
            }
        }
        assert!(refused > 3, "{refused}");
    }
}
