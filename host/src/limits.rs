//! Limits on sizes.
use std::num::NonZeroUsize;

/// The largest sizes that an operator may create, and how much memory a world may hold; `None`
/// means no limit.
///
/// ```
/// use rhai_world::{Error, Limits, Operator, Refusal, SizeKind, World};
/// use std::num::NonZeroUsize;
///
/// let mut world = World::new(Limits::new().with_text(NonZeroUsize::new(3)))?;
/// world.put_text("ab")?;
/// world.put_text("cd")?;
/// let refused = world.binary(Operator::Plus, 0, 1);
/// assert_eq!(refused, Err(Error::Refused(Refusal::TooLarge(SizeKind::Text))));
/// # Ok::<(), Error>(())
/// ```
#[derive(Clone, Copy, Debug, Default, PartialEq, Eq, Hash)]
#[non_exhaustive]
pub struct Limits {
    /// The most bytes of a text.
    pub text: Option<NonZeroUsize>,
    /// The most items of an array, or bytes of a blob.
    pub items: Option<NonZeroUsize>,
    /// The most bytes of memory that a world holds:
    /// [`World::set_max_memory`](crate::World::set_max_memory) says how they are counted.
    pub memory: Option<NonZeroUsize>,
}

impl Limits {
    /// Makes limits without any limit set.
    pub const fn new() -> Limits {
        Limits { text: None, items: None, memory: None }
    }

    /// Limits the bytes of a text.
    pub const fn with_text(self, most: Option<NonZeroUsize>) -> Limits {
        Limits { text: most, ..self }
    }

    /// Limits the items of an array, and the bytes of a blob.
    pub const fn with_items(self, most: Option<NonZeroUsize>) -> Limits {
        Limits { items: most, ..self }
    }

    /// Limits the bytes of memory that a world holds.
    pub const fn with_memory(self, most: Option<NonZeroUsize>) -> Limits {
        Limits { memory: most, ..self }
    }

    /// The limits on texts and on items as the library takes them, where 0 means none.
    pub(crate) fn numbers(self) -> (usize, usize) {
        let number = |most: Option<NonZeroUsize>| most.map_or(0, NonZeroUsize::get);
        (number(self.text), number(self.items))
    }
}
