//! Snapshots: the values of a run, a scope or a world, with everything that they share.
mod read;
mod seen;

pub use seen::{Seen, SeenFields, SeenItems, Shape};

use crate::engine::{CallPlace, EvalError, Run, Saved, Scope};
use crate::error::Error;
use crate::sys::{self, Told};
use crate::world::World;
use seen::Part;
use std::iter::FusedIterator;
use std::slice;

/// The values of a run, a scope or a world, with everything that they share: each shared cell is in
/// it once, and its holders have its number. Cells are numbered from 0 in the order in which they
/// are first reached, those with an open mark before the others.
///
/// It is plain data: later changes don't show in it, and it may go to another thread. Equal scopes
/// have equal snapshots. Reading, comparing and dropping it takes a bounded part of the stack,
/// however deep its values nest.
///
/// ```
/// use rhai_world::{Engine, EvalError, Scope, Shape};
///
/// let mut scope = Scope::new()?;
/// Engine::new().run_with_scope(&mut scope, "let n = 7; let add = |by| n += by; let one = 1;")?;
/// let snapshot = scope.snapshot()?;
/// let names: Vec<&str> = snapshot.variables().map(|(name, _)| name).collect();
/// assert_eq!(names, ["n", "add", "one"]);
///
/// // the variable and the closure hold the same cell
/// let shapes: Vec<Shape> = snapshot.variables().map(|(_, value)| value.shape()).collect();
/// let Shape::FnPtr(_, captured) = &shapes[1] else { panic!("a closure") };
/// let held: Vec<Shape> = captured.clone().map(|value| value.shape()).collect();
/// assert_eq!((&shapes[0], held.as_slice()), (&Shape::Cell(0), [Shape::Cell(0)].as_slice()));
/// assert_eq!(snapshot.cell(0).map(|value| value.shape()), Some(Shape::Int(7)));
/// # Ok::<(), EvalError>(())
/// ```
#[derive(Clone, Debug, PartialEq, Eq, Hash)]
pub struct Snapshot {
    /// All values, each before the values inside.
    parts: Vec<Part>,
    /// The active functions, the innermost first; `None` while no run is under way.
    calls: Option<Vec<Active>>,
    /// The variables of a scope or the entries of a world, from the oldest to the newest.
    variables: Vec<Variable>,
    /// Where the values of the hand begin; `None` unless it is one of a world.
    hand: Option<Vec<usize>>,
    /// How many open marks a world has: the first cells are theirs.
    marks: usize,
    /// Where the contents of the cells begin.
    cells: Vec<usize>,
}

/// An active function.
#[derive(Clone, Debug, PartialEq, Eq, Hash)]
struct Active {
    place: CallPlace,
    variables: Vec<Variable>,
}

/// A variable, with where its value begins.
#[derive(Clone, Debug, PartialEq, Eq, Hash)]
struct Variable {
    name: String,
    value: usize,
}

impl Snapshot {
    /// Returns whether it was taken while a run was under way. Then it has
    /// [`calls`](Snapshot::calls), otherwise [`variables`](Snapshot::variables).
    pub fn is_of_run(&self) -> bool {
        self.calls.is_some()
    }

    /// Iterates over the active functions, the innermost first. There are none unless a run was
    /// under way.
    pub fn calls(&self) -> impl ExactSizeIterator<Item = SeenCall<'_>> + DoubleEndedIterator {
        self.calls.as_deref().unwrap_or_default().iter().map(|call| SeenCall { snapshot: self, call })
    }

    /// Iterates over the variables of a scope, or the entries of a world, oldest first. There are
    /// none while a run is under way: it has the variables.
    pub fn variables(&self) -> SeenVariables<'_> {
        SeenVariables { snapshot: self, left: self.variables.iter() }
    }

    /// Iterates over the values of the hand of a world.
    pub fn hand(&self) -> impl ExactSizeIterator<Item = Seen<'_>> + DoubleEndedIterator {
        self.hand.as_deref().unwrap_or_default().iter().map(|at| self.seen(*at))
    }

    /// Returns the number of open marks of a world. The cell of each mark has the mark's number.
    ///
    /// ```
    /// use rhai_world::{Error, Limits, Shape, World};
    ///
    /// let mut world = World::new(Limits::default())?;
    /// for line in ["int 7", "share 0", "copy 0", "mark 0"] {
    ///     world.line(line)?;
    /// }
    /// let snapshot = world.snapshot()?;
    /// assert_eq!(snapshot.marks(), 1);
    /// let shapes: Vec<Shape> = snapshot.hand().map(|value| value.shape()).collect();
    /// assert_eq!(shapes, [Shape::Cell(0), Shape::Cell(0)]);
    /// assert_eq!(snapshot.cell(0).map(|value| value.shape()), Some(Shape::Int(7)));
    /// # Ok::<(), Error>(())
    /// ```
    pub fn marks(&self) -> usize {
        self.marks
    }

    /// Returns the content of the cell with this number.
    pub fn cell(&self, number: usize) -> Option<Seen<'_>> {
        self.cells.get(number).map(|at| self.seen(*at))
    }

    /// Returns the number of values, with those inside of others and in cells.
    pub fn value_count(&self) -> usize {
        self.parts.len()
    }

    fn seen(&self, at: usize) -> Seen<'_> {
        Seen::new(self.parts.get(at..).unwrap_or_default())
    }
}

/// An active function in a [`Snapshot`].
#[derive(Clone, Copy, Debug)]
pub struct SeenCall<'a> {
    snapshot: &'a Snapshot,
    call: &'a Active,
}

impl<'a> SeenCall<'a> {
    /// Returns its name and where it is.
    pub fn place(&self) -> &'a CallPlace {
        &self.call.place
    }

    /// Iterates over its visible variables, from the newest to the oldest, so that a shadowed one
    /// comes after the one that shadows it.
    pub fn variables(&self) -> SeenVariables<'a> {
        SeenVariables { snapshot: self.snapshot, left: self.call.variables.iter() }
    }
}

/// Variables in a [`Snapshot`], each with its name.
#[derive(Clone, Debug)]
pub struct SeenVariables<'a> {
    snapshot: &'a Snapshot,
    left: slice::Iter<'a, Variable>,
}

impl<'a> SeenVariables<'a> {
    fn of(&self, variable: &'a Variable) -> (&'a str, Seen<'a>) {
        (&variable.name, self.snapshot.seen(variable.value))
    }
}

impl<'a> Iterator for SeenVariables<'a> {
    type Item = (&'a str, Seen<'a>);

    fn next(&mut self) -> Option<Self::Item> {
        let variable = self.left.next()?;
        Some(self.of(variable))
    }

    fn size_hint(&self) -> (usize, Option<usize>) {
        self.left.size_hint()
    }
}

impl DoubleEndedIterator for SeenVariables<'_> {
    fn next_back(&mut self) -> Option<Self::Item> {
        let variable = self.left.next_back()?;
        Some(self.of(variable))
    }
}

impl ExactSizeIterator for SeenVariables<'_> {}

impl FusedIterator for SeenVariables<'_> {}

/// Snapshots of a paused run.
impl Run<'_> {
    /// Takes a snapshot: of the active functions with their visible variables, or, once the run has
    /// ended, of the variables that the scope has back.
    ///
    /// Errors: an allocation fails.
    ///
    /// Cost: the number of values, and for each holder the square of the logarithm of the number of
    /// cells; memory for each value.
    ///
    /// ```
    /// use rhai_world::{Engine, EvalError, Progress, Scope, Shape};
    ///
    /// let engine = Engine::new();
    /// let ast = engine.compile("fn twice(x) {\n    x + x\n}\nlet a = 20;\ntwice(a + 1)")?;
    /// let mut scope = Scope::new()?;
    /// let mut run = engine.start(&mut scope, &ast)?;
    /// run.stop_at_statements(true)?;
    /// while !matches!(run.go(1_000)?, Progress::Statement { line: 2, .. } | Progress::Done(_)) {}
    ///
    /// let snapshot = run.snapshot()?;
    /// let calls: Vec<String> = snapshot.calls().map(|call| call.place().to_string()).collect();
    /// assert_eq!(calls, ["in twice (line 2, column 5)", "in the script (line 5, column 1)"]);
    /// let inner = snapshot.calls().next().and_then(|call| call.variables().next());
    /// assert!(inner.is_some_and(|(name, value)| name == "x" && value.shape() == Shape::Int(21)));
    /// # Ok::<(), EvalError>(())
    /// ```
    pub fn snapshot(&self) -> Result<Snapshot, EvalError> {
        self.scope().snapshot()
    }
}

/// Snapshots of variables.
impl Scope {
    /// Takes a snapshot of the variables.
    ///
    /// Errors: an allocation fails.
    ///
    /// Cost: the number of values, and for each holder the square of the logarithm of the number of
    /// cells; memory for each value.
    pub fn snapshot(&self) -> Result<Snapshot, EvalError> {
        // (while a run is under way, these bytes are a snapshot of it)
        Ok(Snapshot::of_bytes(self.save()?.as_bytes())?)
    }
}

/// Snapshots of worlds.
impl World {
    /// Takes a snapshot of the entries and the hand.
    ///
    /// Errors: an allocation fails.
    ///
    /// Cost: the number of values, and for each holder the square of the logarithm of the number of
    /// cells; memory for each value.
    ///
    /// ```
    /// use rhai_world::{Error, Limits, Shape, World};
    ///
    /// let mut world = World::new(Limits::default())?;
    /// for line in ["int 7", "share 0", "copy 0", "push x 1"] {
    ///     world.line(line)?;
    /// }
    /// let snapshot = world.snapshot()?;
    /// let names: Vec<&str> = snapshot.variables().map(|(name, _)| name).collect();
    /// assert_eq!(names, ["x"]);
    /// assert_eq!(snapshot.hand().next().map(|value| value.shape()), Some(Shape::Cell(0)));
    /// assert_eq!(snapshot.cell(0).map(|value| value.shape()), Some(Shape::Int(7)));
    /// # Ok::<(), Error>(())
    /// ```
    pub fn snapshot(&self) -> Result<Snapshot, Error> {
        let mut told = Told::default();
        let status = sys::snapshot(&self.handle, &mut told);
        Snapshot::of_bytes(&self.bytes(status, &told)?)
    }
}

impl Saved {
    /// Returns the saved variables as a snapshot, to look at them without a scope.
    ///
    /// Errors: an allocation fails; `EvalError::NotSaved` if the bytes, as
    /// [`from_bytes`](Saved::from_bytes) took them, are no saved scope.
    ///
    /// ```
    /// use rhai_world::{EvalError, Saved, Scope};
    ///
    /// let scope = Scope::of([("x", 40)])?;
    /// assert_eq!(scope.save()?.snapshot()?, scope.snapshot()?);
    /// let wrong = Saved::from_bytes(vec![0, 1, 2]);
    /// assert_eq!(wrong.snapshot(), Err(EvalError::NotSaved));
    /// # Ok::<(), EvalError>(())
    /// ```
    pub fn snapshot(&self) -> Result<Snapshot, EvalError> {
        match Snapshot::of_bytes(self.as_bytes()) {
            Ok(snapshot) if snapshot.is_of_scope() => Ok(snapshot),
            Ok(_) | Err(Error::Unexpected) => Err(EvalError::NotSaved),
            Err(error) => Err(error.into()),
        }
    }
}
