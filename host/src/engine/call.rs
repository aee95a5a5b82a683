//! Calls of host functions, while the script waits.
use super::function::{Found, Standing};
use super::functions::{Given, Panic, Refused};
use super::stop::Stop;
use super::watch::Used;
use super::{Arguments, Engine, EvalError, Function, Scope, Wanted};
use crate::sys::ScriptStop;
use crate::value::Value;
use std::fmt;

/// A script's call of a host function. As the first parameter of a registered function it lets the
/// function call functions of the script.
///
/// Calls made through it count towards the run's limits on operations, time, memory, output and
/// nested calls; each uses two levels of nesting. Up to sixty-four host functions may wait for each
/// other. If one of these limits ends the run, each call in it ends with that error, and so does
/// the run, whatever the host functions return. If the script calls `exit` in one, each call in the
/// run ends with `EvalError::Ended`, and the run is done with the value.
///
/// ```
/// use rhai_world::{Call, Engine, EvalError, Function};
///
/// let mut engine = Engine::new();
/// engine.register_fn("twice", |call: &mut Call, f: Function, x: i64| -> Result<i64, EvalError> {
///     let once: i64 = call.call(&f, (x,))?;
///     call.call(&f, (once,))
/// });
/// assert_eq!(engine.eval::<i64>("let step = 3; twice(|x| x + step, 4)")?, 10);
/// # Ok::<(), EvalError>(())
/// ```
pub struct Call<'a> {
    engine: &'a Engine,
    scope: &'a mut Scope,
    used: &'a mut Used,
}

impl<'a> Call<'a> {
    pub(super) fn new(engine: &'a Engine, scope: &'a mut Scope, used: &'a mut Used) -> Call<'a> {
        Call { engine, scope, used }
    }
}

impl Call<'_> {
    /// Calls a function of the script, and returns its value.
    ///
    /// Errors: what nothing in the function caught; if the host function returns that same error,
    /// the script may catch it as if it had been thrown at the call. Also `EvalError::OtherScope`,
    /// `EvalError::NoFunction`, and whatever ends the run.
    pub fn call<T: Wanted>(&mut self, function: &Function, arguments: impl Arguments) -> Result<T, EvalError> {
        let arguments = arguments.into_values()?;
        if let Some(ended) = &self.used.ended {
            return Err(ended.clone());
        }
        match self.scope.call_function(function, arguments) {
            Err(error @ (EvalError::OtherScope | EvalError::NoFunction { .. })) => return Err(error),
            called => called.map_err(|error| self.ends(error))?,
        }
        self.used.within += 1;
        let done = self.go_within();
        self.used.within -= 1;
        self.used.refused = None;
        match done {
            Ok(None) => match T::found(&Found::new(self.scope, Standing::Value)) {
                Err(error @ (EvalError::Mismatch(_) | EvalError::ContainsItself)) => Err(error),
                found => found.map_err(|error| self.ends(error)),
            },
            Ok(Some(error)) => {
                match self.scope.last_value() {
                    Ok(value) => self.used.refused = Some((error.to_string(), value)),
                    // (then the script catches the text of the error)
                    Err(EvalError::ContainsItself) => {}
                    Err(ended) => return Err(self.ends(ended)),
                }
                Err(error)
            }
            Err(error) => Err(self.ends(error)),
        }
    }

    /// Records an error that ends the run, whatever the host function does with it.
    fn ends(&mut self, error: EvalError) -> EvalError {
        self.used.ended = Some(error.clone());
        error
    }

    /// Calls the script's function with this name, and returns its value.
    ///
    /// Errors: those of `call`.
    pub fn call_fn<T: Wanted>(&mut self, name: &str, arguments: impl Arguments) -> Result<T, EvalError> {
        let function = self.scope.function(name).map_err(|error| self.ends(error))?;
        self.call(&function, arguments)
    }

    /// Returns the engine that runs the script.
    pub fn engine(&self) -> &Engine {
        self.engine
    }

    /// Returns the line and the column of the script's call; `None` if it isn't known.
    pub fn line_column(&self) -> Option<(u32, u32)> {
        (self.used.line > 0).then_some((self.used.line, self.used.column))
    }

    /// Returns the number of operations that the run has used so far.
    pub fn operations(&self) -> u64 {
        self.used.operations
    }

    /// Converts the argument of this number, counted from 0.
    pub(super) fn argument<T: Wanted>(&self, number: usize) -> Result<T, Refused> {
        match T::found(&Found::new(self.scope, Standing::Argument(number))) {
            Ok(argument) => Ok(argument),
            Err(EvalError::Mismatch(error)) => Err(Refused::Thrown(error.said(&format!("argument {}", number + 1), "is"))),
            Err(EvalError::ContainsItself) => Err(Refused::Thrown(format!("argument {} contains itself", number + 1))),
            Err(error) => Err(Refused::Ends(error)),
        }
    }

    /// Replaces the first argument.
    pub(super) fn change(&mut self, value: &Value) -> Result<(), Refused> {
        self.scope.change(value).map_err(Refused::Ends)
    }

    /// Continues with the called function until it is done; returns the error that it failed with,
    /// if any.
    ///
    /// Errors: whatever ends the run.
    fn go_within(&mut self) -> Result<Option<EvalError>, EvalError> {
        loop {
            self.used.check(&self.engine.watch)?;
            self.scope.go(self.used.granted(&self.engine.watch, u64::MAX))?;
            let mut stop = self.see()?;
            if let Stop::Calls { function } = stop {
                match self.answer(function)? {
                    Some(refused) => stop = refused,
                    None => continue,
                }
            }
            let (line, column) = (self.used.line, self.used.column);
            match stop {
                Stop::Answered => return Ok(None),
                Stop::Refused { message } => return Ok(Some(EvalError::Runtime { message, line, column, calls: Vec::new() })),
                Stop::Paused => {}
                Stop::Statement => self.engine.at_statement(line, column),
                Stop::Memory => return Err(EvalError::OutOfMemory { line, column, calls: Vec::new() }),
                Stop::Fault { message } => return Err(EvalError::Runtime { message, line, column, calls: Vec::new() }),
                // (the script has exited: the run is done with a value, whatever the host function returns)
                Stop::Done => return Err(EvalError::Ended),
                Stop::Calls { .. } => return Err(EvalError::Unexpected),
            }
        }
    }

    /// Records how far the run went, passes on what it printed, and returns why it stopped.
    #[inline]
    pub(super) fn see(&mut self) -> Result<Stop, EvalError> {
        let ScriptStop { operations, line, column, printed, said, .. } = self.scope.stop;
        (self.used.operations, self.used.line, self.used.column) = (operations, line, column);
        let message = if printed == 0 && said == 0 { String::new() } else { self.pass_on()? };
        self.scope.why(message)
    }

    /// Passes on what the run printed, and returns what went wrong.
    fn pass_on(&mut self) -> Result<String, EvalError> {
        let (printed, message) = self.scope.texts(&self.scope.stop)?;
        let debugs = if printed.is_empty() { Vec::new() } else { self.scope.debugs()? };
        let mut at = 0;
        for debug in debugs {
            let end = debug.begin.saturating_add(debug.length);
            let (before, text) = printed.get(at..debug.begin).zip(printed.get(debug.begin..end)).ok_or(EvalError::Unexpected)?;
            self.print(before)?;
            self.used.print(&self.engine.watch, text)?;
            self.engine.debug(line_of(text), debug.line, debug.column);
            at = end;
        }
        self.print(printed.get(at..).ok_or(EvalError::Unexpected)?)?;
        Ok(message)
    }

    /// Passes printed lines on.
    fn print(&mut self, printed: &str) -> Result<(), EvalError> {
        let (line, column) = (self.used.line, self.used.column);
        for text in printed.split_inclusive('\n') {
            self.used.print(&self.engine.watch, text)?;
            let printed = self.engine.print(line_of(text));
            printed.map_err(|error| EvalError::NotPrinted { why: error.to_string(), line, column, calls: Vec::new() })?;
        }
        Ok(())
    }

    /// Calls a host function; returns how the run stopped if the call failed and nothing caught
    /// that.
    pub(super) fn answer(&mut self, function: usize) -> Result<Option<Stop>, EvalError> {
        self.used.refused = None;
        let (within, engine) = (self.used.within, self.engine);
        let answered = engine.call(function, self);
        if self.used.ended.is_none() {
            if let Ok(Ok(Given::Value(value))) = &answered {
                return self.scope.answer(value).map(|()| None);
            }
        }
        self.answered(within, answered)
    }

    /// Answers the script's call with a function or an error, or ends the run.
    #[inline(never)]
    fn answered(&mut self, within: usize, answered: Result<Result<Given, Refused>, Panic>) -> Result<Option<Stop>, EvalError> {
        match self.used.ended.take() {
            Some(EvalError::Ended) => return Ok(Some(Stop::Done)),
            Some(ended) => return Err(ended),
            None => {}
        }
        let answered = match answered {
            Ok(answered) => answered,
            // (the panic came through a nested call, which can no longer be continued)
            Err(panic) if self.used.within != within => std::panic::resume_unwind(panic),
            Err(_) => Err(Refused::Thrown(PANICKED.to_owned())),
        };
        let why = match answered {
            Ok(Given::Value(value)) => return self.scope.answer(&value).map(|()| None),
            Ok(Given::Function(function)) => return self.scope.answer_function(&function).map(|()| None),
            Err(Refused::Ends(error)) => return Err(error),
            Err(Refused::Thrown(why)) => why,
        };
        match self.used.refused.take() {
            Some((said, value)) if said == why => self.scope.throw(&value)?,
            Some(_) | None => self.scope.refuse(&why)?,
        }
        match self.see()? {
            Stop::Paused => Ok(None),
            stop => Ok(Some(stop)),
        }
    }
}

/// The error of a call whose function panicked.
const PANICKED: &str = "a function of the host panicked";

impl fmt::Debug for Call<'_> {
    fn fmt(&self, f: &mut fmt::Formatter<'_>) -> fmt::Result {
        f.debug_struct("Call").field("used", &self.used).finish_non_exhaustive()
    }
}

/// A line without its line feed.
fn line_of(text: &str) -> &str {
    text.strip_suffix('\n').unwrap_or(text)
}
