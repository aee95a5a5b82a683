//! Access to all variables of a scope, and changes of several.
use super::{EvalError, Scope};
use crate::value::Value;
use std::iter::FusedIterator;

/// The variables of a scope with their names, oldest first. A later one hides an earlier one of the
/// same name from scripts.
///
/// Errors: an allocation fails for one of them; `EvalError::ContainsItself`.
#[derive(Clone, Debug)]
pub struct Variables<'a> {
    scope: &'a Scope,
    next: usize,
    end: usize,
}

impl Variables<'_> {
    fn variable(&self, number: usize) -> Result<(String, Value), EvalError> {
        Ok((self.scope.name(number)?, self.scope.value_at(number)?))
    }
}

impl Iterator for Variables<'_> {
    type Item = Result<(String, Value), EvalError>;

    fn next(&mut self) -> Option<Self::Item> {
        if self.next == self.end {
            return None;
        }
        self.next += 1;
        Some(self.variable(self.next - 1))
    }

    fn size_hint(&self) -> (usize, Option<usize>) {
        let left = self.end - self.next;
        (left, Some(left))
    }
}

impl DoubleEndedIterator for Variables<'_> {
    fn next_back(&mut self) -> Option<Self::Item> {
        if self.next == self.end {
            return None;
        }
        self.end -= 1;
        Some(self.variable(self.end))
    }
}

impl ExactSizeIterator for Variables<'_> {}

impl FusedIterator for Variables<'_> {}

impl<'a> IntoIterator for &'a Scope {
    type Item = Result<(String, Value), EvalError>;
    type IntoIter = Variables<'a>;

    fn into_iter(self) -> Variables<'a> {
        self.iter()
    }
}

/// Several variables at once. (`FromIterator` and `Extend` can't report a failed allocation.)
impl Scope {
    /// Makes a scope with these variables, oldest first.
    ///
    /// ```
    /// use rhai_world::{Engine, EvalError, Scope};
    ///
    /// let mut scope = Scope::of([("x", 40), ("y", 2)])?;
    /// assert_eq!(Engine::new().eval_with_scope::<i64>(&mut scope, "x + y")?, 42);
    /// for variable in &scope {
    ///     let (name, value) = variable?;
    ///     println!("{name} = {value:?}");
    /// }
    /// # Ok::<(), EvalError>(())
    /// ```
    pub fn of<N: AsRef<str>, V: TryInto<Value, Error: Into<EvalError>>>(
        variables: impl IntoIterator<Item = (N, V)>,
    ) -> Result<Scope, EvalError> {
        let mut scope = Scope::new()?;
        scope.extend(variables)?;
        Ok(scope)
    }

    /// Declares these variables. After an error none of them is declared.
    pub fn extend<N: AsRef<str>, V: TryInto<Value, Error: Into<EvalError>>>(
        &mut self,
        variables: impl IntoIterator<Item = (N, V)>,
    ) -> Result<&mut Scope, EvalError> {
        let before = self.len();
        for (name, value) in variables {
            let pushed = self.push(name.as_ref(), value).map(drop);
            if pushed.is_err() {
                self.rewind(before)?;
            }
            pushed?;
        }
        Ok(self)
    }

    /// Drops all variables.
    pub fn clear(&mut self) -> Result<(), EvalError> {
        self.rewind(0)
    }

    /// Returns whether there is a variable with the name.
    pub fn contains(&self, name: &str) -> Result<bool, EvalError> {
        Ok(self.find(name)?.is_some())
    }

    /// Iterates over the names and their values, oldest first.
    pub fn iter(&self) -> Variables<'_> {
        Variables { scope: self, next: 0, end: self.len() }
    }
}
