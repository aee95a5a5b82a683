//! The variables of scripts, and runs over them.
use super::function::{Found, Ledger, Standing};
use super::stop::{Numbers, Scalar};
use super::{Ast, Engine, EvalError, Wanted};
use crate::error::{done, Error};
use crate::limits::Limits;
use crate::memory::Memory;
use crate::sys::{self, Handle, ScriptStop, Told};
use crate::value::Value;
use crate::world::World;
use std::cell::Cell;
use std::fmt;
use std::sync::Arc;

/// Variables that outlive a run, with everything that closures share. A later one hides an earlier
/// one of the same name.
///
/// It stays on the thread that made it; [`save`](Scope::save) makes plain data of it for another one. Only the script that made a closure can call it, in another
/// run of the same text; for another script there is no such function.
///
/// ```
/// use rhai_world::{Engine, EvalError, Scope};
///
/// let engine = Engine::new();
/// let mut scope = Scope::new()?;
/// engine.run_with_scope(&mut scope, "let total = 0; let add = |n| total += n;")?;
/// engine.run_with_scope(&mut scope, "total += 5;")?;
/// assert_eq!(scope.get::<i64>("total"), Some(5));
/// assert_eq!(scope.names()?, ["total", "add"]);
/// # Ok::<(), EvalError>(())
/// ```
///
/// ```compile_fail,E0277
/// let mut scope = rhai_world::Scope::new().unwrap();
/// std::thread::spawn(move || scope.clear());
/// ```
pub struct Scope {
    pub(super) world: World,
    /// The script and the engine whose code the library has.
    compiled: Option<(u64, u64)>,
    /// The functions that it keeps for the program.
    pub(super) ledger: Arc<Ledger>,
    /// Where its run stopped last.
    pub(super) stop: ScriptStop,
    /// The result of a host function, which the run gets when it continues.
    pub(super) waiting: Option<Scalar>,
    /// Whether the library notes lines of `debug`.
    pub(super) notes_debugs: bool,
    /// Whether a run that is done keeps the variables, for the next call of a function.
    rests: Cell<bool>,
}

impl Scope {
    /// Makes a scope without variables.
    pub fn new() -> Result<Scope, EvalError> {
        let (stop, ledger) = (ScriptStop::default(), Arc::default());
        let world = World::new(Limits::default())?;
        Ok(Scope { world, compiled: None, ledger, stop, waiting: None, notes_debugs: false, rests: Cell::new(false) })
    }

    /// Declares a variable.
    ///
    /// Errors: an allocation fails; a number doesn't fit an int. The variable isn't declared then.
    pub fn push(&mut self, name: &str, value: impl TryInto<Value, Error: Into<EvalError>>) -> Result<&mut Scope, EvalError> {
        let value = value.try_into().map_err(Into::into)?;
        done(value.with_bytes(|bytes| sys::variable_push(self.variables(), name.as_bytes(), bytes))?)?;
        Ok(self)
    }

    /// Overwrites the newest variable with the name, or declares one if there is none.
    ///
    /// Errors: an allocation fails; a number doesn't fit an int. Nothing changes then.
    pub fn set(&mut self, name: &str, value: impl TryInto<Value, Error: Into<EvalError>>) -> Result<&mut Scope, EvalError> {
        let Some(number) = self.find(name)? else {
            return self.push(name, value);
        };
        let value = value.try_into().map_err(Into::into)?;
        done(value.with_bytes(|bytes| sys::variable_set(self.variables(), number, bytes))?)?;
        Ok(self)
    }

    /// Returns the value of the newest variable with the name, converted to a Rust type, if there
    /// is one and it is of that type. `try_get` says why not.
    pub fn get<T: Wanted>(&self, name: &str) -> Option<T> {
        self.try_get(name).ok().flatten()
    }

    /// Returns the value of the newest variable with the name, converted to a Rust type; `Ok(None)`
    /// if there is no such variable.
    ///
    /// Errors: `EvalError::Mismatch` if the value isn't of that type; `EvalError::ContainsItself`; an allocation fails.
    ///
    /// ```
    /// use rhai_world::{EvalError, Scope};
    ///
    /// let scope = Scope::of([("x", 40)])?;
    /// assert_eq!(scope.try_get::<i64>("y")?, None);
    /// let wrong = scope.try_get::<String>("x").unwrap_err();
    /// assert_eq!(wrong.to_string(), "the value is an int, and String was wanted");
    /// # Ok::<(), EvalError>(())
    /// ```
    pub fn try_get<T: Wanted>(&self, name: &str) -> Result<Option<T>, EvalError> {
        match self.find(name)? {
            Some(number) => T::found(&Found::new(self, Standing::Variable(number))).map(Some),
            None => Ok(None),
        }
    }

    /// Returns the value of the newest variable with the name, if there is one.
    ///
    /// Errors: `EvalError::ContainsItself`; an allocation fails.
    ///
    /// Cost: what closures share is copied once for each closure that shares it. A script can make a value whose copy is much larger than the
    /// scope; [`Engine::set_max_memory`] limits such copies only during a run.
    pub fn value(&self, name: &str) -> Result<Option<Value>, EvalError> {
        match self.find(name)? {
            Some(number) => self.value_at(number).map(Some),
            None => Ok(None),
        }
    }

    /// Returns the value of the variable of this number, the oldest being 0.
    pub(crate) fn value_at(&self, number: usize) -> Result<Value, EvalError> {
        let mut told = Told::default();
        let status = sys::variable_value(self.variables(), number, &mut told);
        self.value_told(status, &told)
    }

    /// Returns the value of an answer; fails if it contains itself.
    pub(super) fn value_told(&self, status: u32, told: &Told) -> Result<Value, EvalError> {
        match done(status) {
            Ok(()) => Ok(self.world.script_value(status, told)?),
            Err(Error::NoCommand) => Err(EvalError::ContainsItself),
            Err(error) => Err(error.into()),
        }
    }

    /// Returns the number of variables.
    pub fn len(&self) -> usize {
        sys::variable_count(self.variables())
    }

    /// Returns whether there are no variables.
    pub fn is_empty(&self) -> bool {
        self.len() == 0
    }

    /// Returns the names of the variables, oldest first.
    pub fn names(&self) -> Result<Vec<String>, EvalError> {
        (0..self.len()).map(|number| self.name(number)).collect()
    }

    /// Keeps the oldest `count` variables, and drops the newer ones.
    pub fn rewind(&mut self, count: usize) -> Result<(), EvalError> {
        Ok(done(sys::variable_rewind(self.variables(), count))?)
    }

    /// Returns how much memory the scope holds: its variables, the last script that ran, and that
    /// script's last result.
    pub fn memory(&self) -> Memory {
        self.let_go();
        self.world.memory()
    }

    pub(crate) fn name(&self, number: usize) -> Result<String, EvalError> {
        let mut told = Told::default();
        let status = sys::variable_name(self.variables(), number, &mut told);
        String::from_utf8(self.world.bytes(status, &told)?).map_err(|_| EvalError::Unexpected)
    }

    pub(crate) fn find(&self, name: &str) -> Result<Option<usize>, EvalError> {
        for number in (0..self.len()).rev() {
            if self.name(number)? == name {
                return Ok(Some(number));
            }
        }
        Ok(None)
    }
}

/// Runs.
impl Scope {
    /// Returns the world's handle, for access to the variables: a run that rests gives them back.
    pub(super) fn variables(&self) -> &Handle {
        if self.rests.replace(false) {
            // (ending a run fails only for a closed world, and a scope's world is open)
            let _status = sys::script_end(&self.world.handle);
        }
        &self.world.handle
    }

    /// Has the library compile a script for these variables, within the engine's memory limit.
    pub(crate) fn compile(&mut self, ast: &Ast, engine: &Engine) -> Result<(), EvalError> {
        self.world.set_max_memory(engine.limits().memory);
        let compiled = self.compile_within(ast, engine);
        self.world.set_max_memory(None);
        compiled
    }

    fn compile_within(&mut self, ast: &Ast, engine: &Engine) -> Result<(), EvalError> {
        self.compiled = None;
        let mut stop = ScriptStop::default();
        let names = engine.names();
        done(sys::script_compile(self.variables(), ast.text().as_bytes(), names.as_bytes(), &mut stop))?;
        let (_, message) = self.texts(&stop)?;
        if stop.kind != 0 {
            return Err(EvalError::Syntax { message, line: stop.line, column: stop.column });
        }
        self.compiled = Some((ast.serial(), engine.serial()));
        Ok(())
    }

    /// Starts a run of a script; `end` ends it, also if this fails. Until then the engine's memory
    /// limit applies to the scope.
    pub(crate) fn begin(&mut self, ast: &Ast, engine: &Engine, with_body: bool) -> Result<(), EvalError> {
        self.let_go();
        self.world.set_max_memory(engine.limits().memory);
        if self.compiled == Some((ast.serial(), engine.serial())) && self.begins(engine, with_body)? {
            return Ok(());
        }
        self.compile_within(ast, engine)?;
        if self.begins(engine, with_body)? {
            Ok(())
        } else {
            Err(EvalError::Unexpected)
        }
    }

    /// Starts a run of the script that was compiled last, if it was compiled for these variables.
    fn begins(&mut self, engine: &Engine, with_body: bool) -> Result<bool, EvalError> {
        let (text, items) = engine.limits().numbers();
        match done(sys::script_begin(self.variables(), text, items, engine.entries(), engine.calls(), with_body)) {
            Ok(()) => {
                if engine.stops_at_statements() {
                    self.stop_at_statements(true)?;
                }
                self.note_debugs(engine)?;
                Ok(true)
            }
            Err(Error::NoCommand) => Ok(false),
            Err(error) => Err(error.into()),
        }
    }

    /// Starts a call of a function of the script.
    pub(crate) fn call(&mut self, name: &str, arguments: Vec<Value>) -> Result<(), EvalError> {
        let count = arguments.len();
        match done(sys::script_call(&self.world.handle, name.as_bytes(), &Value::list_bytes(&arguments)?)) {
            Ok(()) => Ok(()),
            Err(Error::NoCommand) => Err(EvalError::NoFunction { name: name.to_owned(), arguments: count }),
            Err(error) => Err(error.into()),
        }
    }

    /// Starts a run of a script, calls a function of it, and continues for at most this many
    /// operations, where the library does all that at once; returns whether it did.
    pub(super) fn call_at_once(
        &mut self,
        ast: &Ast,
        engine: &Engine,
        name: &str,
        arguments: &[Value],
        operations: u64,
    ) -> Result<bool, EvalError> {
        self.let_go();
        self.world.set_max_memory(engine.limits().memory);
        if self.compiled != Some((ast.serial(), engine.serial())) {
            self.compile_within(ast, engine)?;
        }
        self.note_debugs(engine)?;
        let (text, items) = engine.limits().numbers();
        let (entries, calls, name) = (engine.entries(), engine.calls(), name.as_bytes());
        let (handle, stop) = (&self.world.handle, &mut self.stop);
        let status = match Numbers::of(arguments) {
            Some(of) => {
                let (kinds, numbers) = (&of.kinds[..arguments.len()], &of.numbers[..arguments.len()]);
                sys::script_call_numbers(handle, text, items, entries, calls, name, kinds, numbers, operations, stop)
            }
            None => {
                let arguments = Value::list_bytes(arguments)?;
                sys::script_call_at_once(handle, text, items, entries, calls, name, &arguments, operations, stop)
            }
        };
        match done(status) {
            Ok(()) => {
                self.rests.set(false);
                Ok(true)
            }
            Err(Error::NoCommand) => Ok(false),
            Err(error) => Err(error.into()),
        }
    }

    /// Sets whether the run stops before each statement.
    pub(crate) fn stop_at_statements(&mut self, stops: bool) -> Result<(), EvalError> {
        Ok(done(sys::script_stop_at_statements(&self.world.handle, stops))?)
    }

    /// Has the library note lines of `debug`, if the engine takes them apart.
    fn note_debugs(&mut self, engine: &Engine) -> Result<(), EvalError> {
        if self.notes_debugs != engine.takes_debugs() {
            done(sys::script_note_debugs(&self.world.handle, engine.takes_debugs()))?;
            self.notes_debugs = engine.takes_debugs();
        }
        Ok(())
    }

    /// Leaves a run that is done as it is, without a limit on memory: the next call of a function
    /// starts it again.
    pub(super) fn rest(&mut self) {
        self.waiting = None;
        self.world.set_max_memory(None);
        self.rests.set(true);
    }

    /// Ends the run, if there is one: the scope has its variables back, without a limit on memory.
    pub(crate) fn end(&mut self) -> Result<(), EvalError> {
        self.waiting = None;
        self.let_go();
        self.world.set_max_memory(None);
        self.rests.set(false);
        Ok(done(sys::script_end(&self.world.handle))?)
    }
}

impl fmt::Debug for Scope {
    fn fmt(&self, f: &mut fmt::Formatter<'_>) -> fmt::Result {
        f.debug_struct("Scope").field("len", &self.len()).finish_non_exhaustive()
    }
}

#[cfg(test)]
mod tests {
    use super::{Engine, EvalError, Scope};
    use crate::sys;

    const TEXT: &str = "let t = \"some text that is longer than others\"; let add = |by| t += by; add.call(`!`);
        fn deep(n) { if n == 0 { [t_of(n)] } else { deep(n - 1) + [n] } } let all = deep(50); print(all); all.len()";

    #[test]
    fn a_closed_scope_has_given_all_back() -> Result<(), EvalError> {
        let mut engine = Engine::new();
        engine.on_print(|_| {}).register_fn("t_of", |n: i64| format!("text number {n}"));
        let text = TEXT.replace('`', "\"");
        let mut ends = (0, 0);
        for bytes in (0..60_000).step_by(500) {
            engine.set_max_memory(bytes);
            let mut scope = Scope::new()?;
            scope.push("before", "a variable that was there before")?;
            match engine.eval_with_scope::<i64>(&mut scope, &text) {
                Ok(count) => ends.0 += usize::from(count == 51),
                Err(error) => {
                    assert!(matches!(error, EvalError::OutOfMemory { .. }), "{error:?}");
                    ends.1 += 1;
                }
            }
            assert_eq!(scope.get::<String>("before").as_deref(), Some("a variable that was there before"));
            sys::close(&scope.world.handle);
            assert_eq!(scope.memory().held, 0);
        }
        assert!(ends.0 > 0 && ends.1 > 0 && ends.0 + ends.1 == 120, "{ends:?}");
        Ok(())
    }
}
