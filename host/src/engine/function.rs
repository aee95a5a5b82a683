//! Functions of scripts, held by the program.
use super::functions::Wanted;
use super::{Arguments, Ast, Call, Engine, EvalError, Run, Scope};
use crate::value::{TryFromValueError, Value};
use std::fmt;
use std::sync::atomic::{AtomicBool, Ordering};
use std::sync::{Arc, Mutex, MutexGuard, PoisonError};

/// A function of a script, such as `Fn("name")`, `|x| x + y` or `name`. In rhai it is `FnPtr`.
///
/// It belongs to a [`Scope`], whose variables it may share. It comes from an argument of a
/// registered function, the value of a script, or a variable. The scope keeps what the function has
/// captured until its last clone is dropped: the script and other functions see what it writes, in
/// later runs too. Another scope refuses it with [`EvalError::OtherScope`], and so does every scope
/// once its own is dropped.
///
/// During a call of a host function use [`Call::call`] to call it. Otherwise use `call` with the
/// script that made it, compiled by any engine.
///
/// ```
/// use rhai_world::{Engine, EvalError, Function, Scope};
///
/// let engine = Engine::new();
/// let ast = engine.compile("let total = 0; |n| { total += n; total }")?;
/// let mut scope = Scope::new()?;
/// let add: Function = engine.eval_ast_with_scope(&mut scope, &ast)?;
/// assert_eq!(add.call::<i64>(&engine, &mut scope, &ast, (2,))?, 2);
/// assert_eq!(add.call::<i64>(&engine, &mut scope, &ast, (3,))?, 5);
/// assert_eq!(scope.get::<i64>("total"), Some(5));
/// # Ok::<(), EvalError>(())
/// ```
#[derive(Clone)]
pub struct Function {
    root: Arc<Root>,
}

/// The share in a function that a scope keeps; dropped with the last clone.
struct Root {
    number: usize,
    ledger: Arc<Ledger>,
}

impl Drop for Root {
    fn drop(&mut self) {
        let mut entries = self.ledger.entries();
        entries.live = entries.live.saturating_sub(1);
        // (its capacity was reserved when the function was kept)
        entries.dropped.push(self.number);
        self.ledger.has_dropped.store(true, Ordering::Release);
    }
}

/// A scope's record of functions that were dropped; the scope frees them the next time it is used.
#[derive(Default)]
pub(super) struct Ledger {
    entries: Mutex<Entries>,
    /// Whether a function was dropped that is not freed yet: a scope looks here first, and takes no lock.
    has_dropped: AtomicBool,
}

#[derive(Default)]
struct Entries {
    live: usize,
    dropped: Vec<usize>,
}

impl Ledger {
    fn entries(&self) -> MutexGuard<'_, Entries> {
        self.entries.lock().unwrap_or_else(PoisonError::into_inner)
    }

    /// Reserves capacity to record one more dropped function.
    pub(super) fn reserve(&self) -> Result<(), EvalError> {
        let mut entries = self.entries();
        let more = entries.live.saturating_add(1);
        entries.dropped.try_reserve(more).map_err(|_| EvalError::OutOfMemory { line: 0, column: 0, calls: Vec::new() })
    }

    /// Makes the handle of a function that the library keeps under this number.
    pub(super) fn function(ledger: &Arc<Ledger>, number: usize) -> Function {
        let mut entries = ledger.entries();
        entries.live = entries.live.saturating_add(1);
        Function { root: Arc::new(Root { number, ledger: Arc::clone(ledger) }) }
    }

    /// Takes the number of one dropped function.
    #[inline]
    pub(super) fn take(&self) -> Option<usize> {
        if !self.has_dropped.load(Ordering::Acquire) {
            return None;
        }
        let mut entries = self.entries();
        let number = entries.dropped.pop();
        self.has_dropped.store(!entries.dropped.is_empty(), Ordering::Release);
        number
    }
}

impl Function {
    /// Calls the function over the variables of its scope, without running the script itself. `ast`
    /// is the script that made it.
    ///
    /// Errors: whatever ended the call; `EvalError::OtherScope`; `EvalError::NoFunction`, if it
    /// takes another number of arguments, or another script made it.
    pub fn call<T: Wanted>(
        &self,
        engine: &Engine,
        scope: &mut Scope,
        ast: &Ast,
        arguments: impl Arguments,
    ) -> Result<T, EvalError> {
        Run::begin_function(engine, scope, ast, self, arguments.into_values()?)?.finish()
    }

    /// Calls the function during a call of a host function, as [`Call::call`] does.
    pub fn call_within_context<T: Wanted>(&self, call: &mut Call<'_>, arguments: impl Arguments) -> Result<T, EvalError> {
        call.call(self, arguments)
    }

    /// Returns its number, if the scope with this ledger keeps it.
    pub(super) fn number(&self, ledger: &Arc<Ledger>) -> Result<usize, EvalError> {
        if Arc::ptr_eq(&self.root.ledger, ledger) {
            Ok(self.root.number)
        } else {
            Err(EvalError::OtherScope)
        }
    }
}

impl Wanted for Function {
    /// Fails: a Rust value has no part in what a script shares.
    fn wanted(value: Value) -> Result<Function, TryFromValueError> {
        Err(TryFromValueError::of_type(value, "Function"))
    }

    fn found(found: &Found<'_>) -> Result<Function, EvalError> {
        match found.function()? {
            Some(function) => Ok(function),
            None => Ok(Function::wanted(found.value()?)?),
        }
    }
}

/// Compares identity: equal if they are clones of each other.
impl PartialEq for Function {
    fn eq(&self, other: &Function) -> bool {
        Arc::ptr_eq(&self.root, &other.root)
    }
}

impl Eq for Function {}

impl fmt::Debug for Function {
    fn fmt(&self, f: &mut fmt::Formatter<'_>) -> fmt::Result {
        f.debug_struct("Function").field("number", &self.root.number).finish_non_exhaustive()
    }
}

/// A value in a scope, before its conversion to a Rust type.
#[derive(Debug)]
pub struct Found<'a> {
    scope: &'a Scope,
    place: Standing,
}

/// Where a value is.
#[derive(Clone, Copy, Debug)]
pub(super) enum Standing {
    /// Among the arguments of a host function.
    Argument(usize),
    /// The value that a run, or a call within it, has just returned.
    Value,
    /// Among the variables.
    Variable(usize),
}

impl<'a> Found<'a> {
    pub(super) fn new(scope: &'a Scope, place: Standing) -> Found<'a> {
        Found { scope, place }
    }

    /// Returns the value, without what it shares.
    ///
    /// Errors: an allocation fails.
    pub fn value(&self) -> Result<Value, EvalError> {
        match self.place {
            Standing::Argument(number) => self.scope.argument(number),
            Standing::Value => self.scope.last_value(),
            Standing::Variable(number) => self.scope.value_at(number),
        }
    }

    /// Returns the function, if the value is one.
    ///
    /// Errors: an allocation fails.
    pub fn function(&self) -> Result<Option<Function>, EvalError> {
        match self.place {
            Standing::Argument(number) => self.scope.keep(0, number),
            Standing::Value => self.scope.keep(1, 0),
            Standing::Variable(number) => self.scope.keep(2, number),
        }
    }
}
