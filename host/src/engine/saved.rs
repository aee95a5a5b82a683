//! The variables of a scope as plain data.
use super::{EvalError, Scope};
use crate::error::{done, Error};
use crate::sys::{self, Told};
use std::fmt;

/// The variables of a [`Scope`] as plain data, with everything that they share: what two closures captured is one place again in the
/// scope that is made of it. It can go to another thread, and be kept as bytes.
///
/// Equal scopes have equal bytes: shared places are numbered in the order in which they are first reached.
///
/// ```
/// use rhai_world::{Engine, EvalError, Scope};
///
/// let engine = Engine::new();
/// let ast = engine.compile("if is_new { is_new = false; f = || n += 1; } f.call(); f.call();")?;
/// let mut scope = Scope::new()?;
/// scope.push("is_new", true)?.push("n", 0)?.push("f", ())?;
/// engine.run_ast_with_scope(&mut scope, &ast)?;
/// let saved = scope.save()?;
///
/// let counted = std::thread::spawn(move || -> Result<Option<i64>, EvalError> {
///     let mut scope = saved.restore()?;
///     engine.run_ast_with_scope(&mut scope, &ast)?;
///     scope.try_get("n")
/// });
/// assert_eq!(counted.join().expect("no panic")?, Some(4));
/// assert_eq!(scope.get::<i64>("n"), Some(2));
/// # Ok::<(), EvalError>(())
/// ```
#[derive(Clone, PartialEq, Eq, Hash)]
pub struct Saved {
    bytes: Vec<u8>,
}

impl Saved {
    /// Makes a scope of these variables. The functions that the program kept of the saved scope aren't in it.
    ///
    /// Errors: an allocation fails; `EvalError::NotSaved` if the bytes, as [`from_bytes`](Saved::from_bytes) took them, are no saved scope.
    pub fn restore(&self) -> Result<Scope, EvalError> {
        let scope = Scope::new()?;
        match done(sys::script_restore(&scope.world.handle, &self.bytes)) {
            Ok(()) => Ok(scope),
            Err(Error::NoCommand) => Err(EvalError::NotSaved),
            Err(error) => Err(error.into()),
        }
    }

    /// Returns the bytes, to store them.
    pub fn as_bytes(&self) -> &[u8] {
        &self.bytes
    }

    /// Returns the bytes without copying them.
    pub fn into_bytes(self) -> Vec<u8> {
        self.bytes
    }

    /// Takes bytes that were stored. Whether they are a saved scope shows when it is restored.
    ///
    /// ```
    /// use rhai_world::{EvalError, Saved, Scope};
    ///
    /// let stored = Scope::of([("n", 7)])?.save()?.into_bytes();
    /// assert_eq!(Saved::from_bytes(stored).restore()?.get::<i64>("n"), Some(7));
    /// assert!(matches!(Saved::from_bytes(vec![1, 2, 3]).restore(), Err(EvalError::NotSaved)));
    /// # Ok::<(), EvalError>(())
    /// ```
    pub fn from_bytes(bytes: Vec<u8>) -> Saved {
        Saved { bytes }
    }
}

impl fmt::Debug for Saved {
    fn fmt(&self, f: &mut fmt::Formatter<'_>) -> fmt::Result {
        f.debug_struct("Saved").field("bytes", &self.bytes.len()).finish_non_exhaustive()
    }
}

/// Saving.
impl Scope {
    /// Saves the variables with everything that they share; [`Saved::restore`] makes a scope of them. Functions that the program keeps aren't
    /// saved.
    ///
    /// Errors: an allocation fails.
    pub fn save(&self) -> Result<Saved, EvalError> {
        let mut told = Told::default();
        let status = sys::script_snapshot(self.variables(), &mut told);
        Ok(Saved { bytes: self.world.bytes(status, &told)? })
    }
}
