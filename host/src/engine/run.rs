//! Paused runs, and their execution in pieces.
use super::error::MOST_CALLS;
use super::function::{Found, Standing};
use super::stop::Stop;
use super::watch::Used;
use super::{Ast, Call, CallPlace, Engine, EvalError, Function, Scope, Wanted};
use crate::memory::Memory;
use crate::value::Value;
use std::borrow::Cow;
use std::fmt;
use std::mem::{replace, take};

/// How far a run got.
#[derive(Clone, Debug, PartialEq, Eq, Hash)]
pub enum Progress {
    /// To its end, with this value.
    Done(Value),
    /// To the end of its piece: it may continue.
    Paused,
    /// To the next statement, if it stops before statements: it may continue.
    Statement {
        /// The line of the statement.
        line: u32,
        /// The column of the statement.
        column: u32,
    },
}

/// How far a run got, with its value as a Rust type.
enum Came<T> {
    Done(T),
    Paused,
    Statement { line: u32, column: u32 },
}

/// A run of a script that executes as many operations at a time as it is given. It calls host
/// functions meanwhile.
///
/// While it exists, it has the variables of its scope. The scope has them back, with their current
/// values, once the run is done, failed, or dropped.
///
/// ```
/// use rhai_world::{Engine, EvalError, Progress, Scope, Value};
///
/// let engine = Engine::new();
/// let ast = engine.compile("let sum = 0; for n in 0..100_000 { sum += n; } sum")?;
/// let mut scope = Scope::new()?;
/// let mut run = engine.start(&mut scope, &ast)?;
/// let mut pieces = 1;
/// let value = loop {
///     match run.go(1_000)? {
///         Progress::Done(value) => break value,
///         Progress::Paused | Progress::Statement { .. } => pieces += 1,
///     }
/// };
/// assert_eq!(value, Value::Int(4_999_950_000));
/// assert!(pieces > 100);
/// # Ok::<(), EvalError>(())
/// ```
pub struct Run<'a> {
    engine: &'a Engine,
    scope: &'a mut Scope,
    /// The function to call after the statements outside functions.
    function: Option<(Cow<'a, str>, Vec<Value>)>,
    /// Whether it has stopped when it started, and that is still to be looked at.
    stopped: bool,
    /// Whether it may rest once it is done.
    may_rest: bool,
    /// How many variables are left at the end, if not all.
    stay: Option<usize>,
    stands: bool,
    stops: bool,
    used: Used,
}

impl<'a> Run<'a> {
    fn new(engine: &'a Engine, scope: &'a mut Scope) -> Run<'a> {
        let used = Used::new(&engine.watch);
        Run { engine, scope, function: None, stopped: false, may_rest: false, stay: None, stands: true, stops: false, used }
    }

    pub(super) fn begin(engine: &'a Engine, scope: &'a mut Scope, ast: &Ast) -> Result<Run<'a>, EvalError> {
        let run = Run::new(engine, scope);
        run.scope.begin(ast, engine, true)?;
        Ok(run)
    }

    /// Starts a run that only calls a function of the scope.
    pub(super) fn begin_function(
        engine: &'a Engine,
        scope: &'a mut Scope,
        ast: &Ast,
        function: &Function,
        arguments: Vec<Value>,
    ) -> Result<Run<'a>, EvalError> {
        scope.owns(function)?;
        let run = Run::new(engine, scope);
        run.scope.begin(ast, engine, false)?;
        run.scope.call_function(function, arguments)?;
        Ok(run)
    }

    /// Starts a run that calls a function at its end. It keeps only the variables that existed
    /// before.
    pub(super) fn begin_call(
        engine: &'a Engine,
        scope: &'a mut Scope,
        ast: &Ast,
        name: Cow<'a, str>,
        arguments: Vec<Value>,
    ) -> Result<Run<'a>, EvalError> {
        let mut run = Run::new(engine, scope);
        run.start_call(ast, name, arguments)?;
        Ok(run)
    }

    fn start_call(&mut self, ast: &Ast, name: Cow<'a, str>, arguments: Vec<Value>) -> Result<(), EvalError> {
        self.stay = Some(self.scope.len());
        self.scope.begin(ast, self.engine, true)?;
        self.function = Some((name, arguments));
        Ok(())
    }

    /// Calls a function as `begin_call` does, and finishes. A script without statements outside
    /// functions starts, calls and ends in one crossing, as far as the engine lets it go at once.
    pub(super) fn call_whole<T: Wanted>(
        engine: &'a Engine,
        scope: &'a mut Scope,
        ast: &Ast,
        name: &'a str,
        arguments: &mut [Value],
    ) -> Result<T, EvalError> {
        let mut run = Run::new(engine, scope);
        run.used.begin_piece(&engine.watch);
        if !engine.stops_at_statements() && run.used.check(&engine.watch).is_ok() {
            let granted = run.used.granted(&engine.watch, u64::MAX);
            run.stopped = run.scope.call_at_once(ast, engine, name, arguments, granted)?;
            run.may_rest = run.stopped;
        }
        run.used.end_piece();
        if run.stopped && run.scope.is_done_silently() {
            // (what fails here fails below too, with its place)
            if let Ok(value) = T::found(&Found::new(run.scope, Standing::Value)) {
                run.stands = false;
                run.scope.rest();
                return Ok(value);
            }
        }
        if !run.stopped {
            run.start_call(ast, name.into(), arguments.iter_mut().map(|it| replace(it, Value::Unit)).collect())?;
        }
        run.finish()
    }

    /// Continues for at most this many operations, and returns how far it got. The size of new
    /// values counts as operations too, so the last operation may go past the limit by that size.
    ///
    /// Errors: whatever ended the run, which can't continue; `EvalError::Ended` if it had ended
    /// before.
    pub fn go(&mut self, operations: u64) -> Result<Progress, EvalError> {
        Ok(match self.piece(operations)? {
            Came::Done(value) => Progress::Done(value),
            Came::Paused => Progress::Paused,
            Came::Statement { line, column } => Progress::Statement { line, column },
        })
    }

    /// Executes one piece, and converts the value if the run is done.
    fn piece<T: Wanted>(&mut self, operations: u64) -> Result<Came<T>, EvalError> {
        if !self.stands {
            return Err(EvalError::Ended);
        }
        self.used.begin_piece(&self.engine.watch);
        let mut gone = self.advance(self.used.operations.saturating_add(operations));
        self.used.end_piece();
        if let Err(error) = &mut gone {
            error.note_place((self.used.line, self.used.column));
            error.note_calls(|| self.scope.calls_under_way(MOST_CALLS));
        }
        match gone {
            Ok(Came::Paused | Came::Statement { .. }) => {}
            Ok(Came::Done(_)) if self.may_rest => {
                self.stands = false;
                self.scope.rest();
            }
            Ok(Came::Done(_)) | Err(_) => self.end()?,
        }
        gone
    }

    /// Continues to its end.
    pub(super) fn finish<T: Wanted>(mut self) -> Result<T, EvalError> {
        loop {
            if let Came::Done(value) = self.piece(u64::MAX)? {
                return Ok(value);
            }
        }
    }

    /// Sets whether the run stops before each statement. `go` then returns `Progress::Statement`.
    ///
    /// Errors: `EvalError::Ended`.
    pub fn stop_at_statements(&mut self, stops: bool) -> Result<(), EvalError> {
        if !self.stands {
            return Err(EvalError::Ended);
        }
        self.stops = stops;
        self.scope.stop_at_statements(stops || self.engine.stops_at_statements())
    }

    /// Returns the number of operations that it has used so far.
    pub fn operations(&self) -> u64 {
        self.used.operations
    }

    /// Returns the line and the column where it is, once it has started; `None` if it is done.
    pub fn line_column(&self) -> Option<(u32, u32)> {
        (self.used.line > 0).then_some((self.used.line, self.used.column))
    }

    /// Returns how much memory the scope holds now.
    pub fn memory(&self) -> Memory {
        self.scope.memory()
    }

    /// Returns the active functions of the script, the innermost first; the last is the script itself, or the function of
    /// [`start_fn`](Engine::start_fn) once that is called. If an allocation fails, the list ends early.
    ///
    /// ```
    /// use rhai_world::{Engine, EvalError, Progress, Scope, Value};
    ///
    /// let engine = Engine::new();
    /// let ast = engine.compile("fn twice(x) {\n    let y = x + x;\n    y\n}\nlet a = 20;\ntwice(a + 1)")?;
    /// let mut scope = Scope::new()?;
    /// let mut run = engine.start(&mut scope, &ast)?;
    /// run.stop_at_statements(true)?;
    /// while !matches!(run.go(1_000)?, Progress::Statement { line: 3, .. } | Progress::Done(_)) {}
    ///
    /// let calls: Vec<String> = run.calls().iter().map(ToString::to_string).collect();
    /// assert_eq!(calls, ["in twice (line 3, column 5)", "in the script (line 6, column 1)"]);
    /// assert_eq!(run.variables(0)?, [("y".to_owned(), Value::Int(42)), ("x".to_owned(), Value::Int(21))]);
    /// # Ok::<(), EvalError>(())
    /// ```
    pub fn calls(&self) -> Vec<CallPlace> {
        self.scope.calls_under_way(usize::MAX)
    }

    /// Returns the active function with this number in [`calls`](Run::calls), without listing the
    /// others. There is one with number `n` if more than `n` functions are active.
    pub fn call_at(&self, number: usize) -> Option<CallPlace> {
        self.scope.calls_under_way_from(number).next()
    }

    /// Returns the visible variables of an active function, given by its number in [`calls`](Run::calls), with their values: from the newest
    /// to the oldest, so that a shadowed one comes after the one that shadows it. The list is empty if there is no such function. `this` isn't
    /// listed, and while a method is called, the place whose value it has as `this` is `()`.
    ///
    /// Errors: an allocation fails; `EvalError::ContainsItself`.
    pub fn variables(&self, call: usize) -> Result<Vec<(String, Value)>, EvalError> {
        self.scope.variables_in_sight(call)
    }
}

/// How it continues.
impl Run<'_> {
    pub(crate) fn scope(&self) -> &Scope {
        self.scope
    }

    /// Continues until it has used this many operations, is done, or has to stop.
    fn advance<T: Wanted>(&mut self, until: u64) -> Result<Came<T>, EvalError> {
        loop {
            if !take(&mut self.stopped) {
                self.used.check(&self.engine.watch)?;
                if self.used.operations >= until {
                    self.scope.settle()?;
                    return Ok(Came::Paused);
                }
                self.scope.go(self.used.granted(&self.engine.watch, until))?;
            }
            let mut stop = self.call().see()?;
            if let Stop::Calls { function } = stop {
                match self.call().answer(function)? {
                    Some(refused) => stop = refused,
                    None => continue,
                }
            }
            let (line, column) = (self.used.line, self.used.column);
            match stop {
                Stop::Done => {
                    let Some((name, arguments)) = self.function.take() else {
                        return Ok(Came::Done(T::found(&Found::new(self.scope, Standing::Value))?));
                    };
                    self.scope.call(&name, arguments)?;
                }
                Stop::Paused => {}
                Stop::Statement => {
                    self.engine.at_statement(line, column);
                    if self.stops {
                        return Ok(Came::Statement { line, column });
                    }
                }
                Stop::Memory => return Err(EvalError::OutOfMemory { line, column, calls: Vec::new() }),
                Stop::Fault { message } => return Err(EvalError::Runtime { message, line, column, calls: Vec::new() }),
                Stop::Calls { .. } | Stop::Answered | Stop::Refused { .. } => return Err(EvalError::Unexpected),
            }
        }
    }

    /// What serves calls of host functions.
    fn call(&mut self) -> Call<'_> {
        Call::new(self.engine, self.scope, &mut self.used)
    }

    /// Gives the variables back to the scope.
    fn end(&mut self) -> Result<(), EvalError> {
        if !replace(&mut self.stands, false) {
            return Ok(());
        }
        self.scope.end()?;
        match self.stay {
            Some(count) => self.scope.rewind(count),
            None => Ok(()),
        }
    }
}

impl Drop for Run<'_> {
    fn drop(&mut self) {
        // (ending a run fails only for a closed world, and a scope's world is open)
        let _ended = self.end();
    }
}

impl fmt::Debug for Run<'_> {
    fn fmt(&self, f: &mut fmt::Formatter<'_>) -> fmt::Result {
        f.debug_struct("Run").field("stands", &self.stands).field("used", &self.used).finish_non_exhaustive()
    }
}
