//! How a scope keeps functions for the program.
use super::function::Ledger;
use super::{EvalError, Function, Scope};
use crate::error::{done, Error};
use crate::sys::{self, Told};
use crate::value::Value;

/// Functions that are kept for the program.
impl Scope {
    /// Keeps the function at a place, if there is one: at source 0 an argument of this number, at 1
    /// the value of a run, at 2 a variable.
    pub(super) fn keep(&self, source: u32, at: usize) -> Result<Option<Function>, EvalError> {
        self.let_go();
        self.ledger.reserve()?;
        let mut number = 0;
        let handle = if source == 2 { self.variables() } else { &self.world.handle };
        match done(sys::function_keep(handle, source, at, &mut number)) {
            Ok(()) => Ok(Some(Ledger::function(&self.ledger, number))),
            Err(Error::NoCommand) => Ok(None),
            Err(error) => Err(error.into()),
        }
    }

    /// Makes a pointer to the function with a name, as `Fn(name)` does in a script. Whether the
    /// script has such a function shows only when it is called.
    ///
    /// Errors: an allocation fails.
    ///
    /// ```
    /// use rhai_world::{Engine, EvalError, Scope};
    ///
    /// let engine = Engine::new();
    /// let ast = engine.compile("fn double(x) { x * 2 }")?;
    /// let mut scope = Scope::new()?;
    /// let double = scope.function("double")?;
    /// assert_eq!(double.call::<i64>(&engine, &mut scope, &ast, (21,))?, 42);
    /// # Ok::<(), EvalError>(())
    /// ```
    pub fn function(&self, name: &str) -> Result<Function, EvalError> {
        self.let_go();
        self.ledger.reserve()?;
        let mut number = 0;
        done(sys::function_of(&self.world.handle, name.as_bytes(), &mut number))?;
        Ok(Ledger::function(&self.ledger, number))
    }

    /// Frees the functions that the program has dropped.
    pub(super) fn let_go(&self) {
        while let Some(number) = self.ledger.take() {
            // (a kept function is freed once, so an error here can't happen, and could not be
            // reported)
            let _status = sys::function_let_go(&self.world.handle, number);
        }
    }

    /// Fails for a function of another scope.
    pub(super) fn owns(&self, function: &Function) -> Result<(), EvalError> {
        function.number(&self.ledger).map(drop)
    }

    /// Starts a call of a function of this scope.
    pub(super) fn call_function(&mut self, function: &Function, arguments: Vec<Value>) -> Result<(), EvalError> {
        let number = function.number(&self.ledger)?;
        let count = arguments.len();
        match done(sys::function_call(&self.world.handle, number, &Value::list_bytes(&arguments)?)) {
            Ok(()) => Ok(()),
            Err(Error::NoCommand) => Err(EvalError::NoFunction { name: self.function_name(number)?, arguments: count }),
            Err(error) => Err(error.into()),
        }
    }

    /// Passes a function of the scope to the script that called a registered function.
    pub(super) fn answer_function(&mut self, function: &Function) -> Result<(), EvalError> {
        let number = function.number(&self.ledger)?;
        Ok(done(sys::function_answer(&self.world.handle, number))?)
    }

    /// Returns the name of a kept function; only the beginning of a closure's if what it captured contains the closure.
    fn function_name(&self, number: usize) -> Result<String, EvalError> {
        let mut told = Told::default();
        let status = sys::function_value(&self.world.handle, number, &mut told);
        match self.value_told(status, &told) {
            Ok(Value::FnPtr(name, _)) => Ok(name),
            Ok(_) => Err(EvalError::Unexpected),
            Err(EvalError::ContainsItself) => Ok("anon$".to_owned()),
            Err(error) => Err(error),
        }
    }
}
