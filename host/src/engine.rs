//! Embedded scripts: host functions, variables that outlive a run, and budgets.
mod ast;
mod call;
mod error;
mod function;
mod functions;
mod keeping;
mod objects;
mod run;
mod saved;
mod scope;
mod sizes;
mod standing;
mod stop;
mod variables;
mod watch;

pub use ast::Ast;
pub use call::Call;
pub use error::{CallPlace, EvalError};
pub use function::{Found, Function};
pub use functions::{Answers, Arguments, HostFn, Parameter, Wanted};
pub use objects::{Object, Objects};
pub use run::{Progress, Run};
pub use saved::Saved;
pub use scope::Scope;
pub use variables::Variables;
pub use watch::Interrupt;

use crate::limits::Limits;
use functions::{Given, Panic, Refused, Registered, Unread};
use std::fmt;
use std::io::Write;
use std::sync::atomic::{AtomicU64, Ordering};
use watch::Watch;

/// The default limit on nested calls of a script.
const CALLS: usize = 500;

/// The callback for each line that a script prints.
type Print = Box<dyn Fn(&str) + Send + Sync>;

/// Gets what scripts print by `debug`: the text, and the line and the column of the call.
type Debug = Box<dyn Fn(&str, u32, u32) + Send + Sync>;

/// The callback before each statement, with its line and column.
type AtStatement = Box<dyn Fn(u32, u32) + Send + Sync>;

/// Counts the engines and scripts made so far.
static SERIAL: AtomicU64 = AtomicU64::new(0);

/// Returns a number that no other engine or script of this process has.
fn serial() -> u64 {
    SERIAL.fetch_add(1, Ordering::Relaxed)
}

/// Compiles and runs scripts. Scripts may call the functions registered with it.
///
/// ```
/// use rhai_world::{Engine, EvalError, Scope};
///
/// let mut engine = Engine::new();
/// engine.register_fn("price", |of: &str, amount: i64| -> Result<i64, String> {
///     match of {
///         "apple" => Ok(3 * amount),
///         other => Err(format!("no price of {other}")),
///     }
/// });
/// engine.set_max_operations(100_000);
///
/// let ast = engine.compile("stock -= 2; price(\"apple\", 2) + stock")?;
/// let mut scope = Scope::new()?;
/// scope.push("stock", 40)?;
/// assert_eq!(engine.eval_ast_with_scope::<i64>(&mut scope, &ast)?, 44);
/// assert_eq!(scope.get::<i64>("stock"), Some(38));
/// # Ok::<(), EvalError>(())
/// ```
pub struct Engine {
    functions: Vec<Registered>,
    /// Their names as the library takes them, one a line.
    names: String,
    /// Identifies this engine with its present functions.
    serial: u64,
    limits: Limits,
    entries: usize,
    watch: Watch,
    calls: usize,
    print: Option<Print>,
    debug: Option<Debug>,
    at_statement: Option<AtStatement>,
}

impl Engine {
    /// Makes an engine with no limit except 500 nested calls. Its scripts print to standard output.
    pub fn new() -> Engine {
        Engine {
            functions: Vec::new(),
            names: String::new(),
            serial: serial(),
            limits: Limits::default(),
            entries: 0,
            watch: Watch::new(),
            calls: CALLS,
            print: None,
            debug: None,
            at_statement: None,
        }
    }

    /// Registers a function with this name and up to six parameters. Functions of one name are told
    /// apart by their number of parameters; a later one with the same number replaces an earlier
    /// one. A call finds functions of the script first, then these, then those of the packages. A
    /// name that scripts can't write, such as `+`, is never called.
    ///
    /// Parameters and results may be integers of any type, `bool`, `char`, `String`, `()`, `Option`
    /// with unit as `None`, vectors and arrays, maps by `String`, ranges, and
    /// [`Value`](crate::Value). A parameter may also be a `&str`, and a result a `&'static str`, or a
    /// `Result` of any of these and an error. An argument or result that doesn't fit, such as a number out of range,
    /// is an error. Errors and panics are thrown where the script calls, and the script may catch
    /// them.
    ///
    /// A [`Function`] may be a parameter or the result. With a `&mut` [`Call`] before the
    /// parameters the function can call functions of the script.
    ///
    /// The first parameter may be a `&mut` of such a type. Unless the function fails, its final
    /// value is written back to where the argument came from, such as `x` and `x.a[0]` in `x.f()`
    /// and `x.a[0].f()`. In `f(x)` this happens for a variable that no closure shares and that
    /// isn't a constant.
    ///
    /// ```
    /// use rhai_world::{Engine, EvalError};
    ///
    /// let mut engine = Engine::new();
    /// engine.register_fn("half", |n: i64| if n % 2 == 0 { Ok(n / 2) } else { Err("it is odd") });
    /// assert_eq!(engine.eval::<i64>("half(8)")?, 4);
    /// assert_eq!(engine.eval::<String>("try { half(7) } catch (e) { e }")?, "it is odd");
    /// engine.register_fn("grow", |list: &mut Vec<i64>, by: i64| list.push(by));
    /// assert_eq!(engine.eval::<Vec<i64>>("let list = [1]; list.grow(2); list")?, [1, 2]);
    /// # Ok::<(), EvalError>(())
    /// ```
    pub fn register_fn<A, K, F: HostFn<A, K>>(&mut self, name: &str, function: F) -> &mut Engine {
        let registered = Registered::new(name, function);
        match self.functions.iter_mut().find(|known| known.is_like(&registered)) {
            Some(known) => {
                *known = registered;
                self.names = self.functions.iter().map(Registered::line).collect();
            }
            None => {
                self.names.push_str(&registered.line());
                self.functions.push(registered);
            }
        }
        self.serial = serial();
        self
    }

    /// Sets the callback for what scripts print; it is called once a line.
    ///
    /// ```
    /// use rhai_world::{Engine, EvalError};
    /// use std::sync::{Arc, Mutex};
    ///
    /// let lines = Arc::new(Mutex::new(Vec::new()));
    /// let kept = Arc::clone(&lines);
    /// let mut engine = Engine::new();
    /// engine.on_print(move |line| kept.lock().expect("no panic").push(line.to_owned()));
    /// engine.run("print(1 + 1); debug(\"two\");")?;
    /// assert_eq!(*lines.lock().expect("no panic"), ["2", "\"two\""]);
    /// # Ok::<(), EvalError>(())
    /// ```
    pub fn on_print(&mut self, print: impl Fn(&str) + Send + Sync + 'static) -> &mut Engine {
        self.print = Some(Box::new(print));
        self
    }

    /// Sets the callback for what scripts print by `debug`, with the line and the column of the
    /// call. Without one it goes where the other lines go.
    ///
    /// ```
    /// use rhai_world::{Engine, EvalError};
    /// use std::sync::{Arc, Mutex};
    ///
    /// let lines = Arc::new(Mutex::new(Vec::new()));
    /// let kept = Arc::clone(&lines);
    /// let mut engine = Engine::new();
    /// engine.on_print(|_| {});
    /// engine.on_debug(move |text, line, column| {
    ///     kept.lock().expect("no panic").push(format!("{line}:{column} {text}"));
    /// });
    /// engine.run("print(1);\ndebug(\"two\");")?;
    /// assert_eq!(*lines.lock().expect("no panic"), ["2:1 \"two\""]);
    /// # Ok::<(), EvalError>(())
    /// ```
    pub fn on_debug(&mut self, debug: impl Fn(&str, u32, u32) + Send + Sync + 'static) -> &mut Engine {
        self.debug = Some(Box::new(debug));
        self
    }

    /// Sets a callback that runs before each statement of a script, with its line and column.
    /// Scripts run slower with it.
    ///
    /// ```
    /// use rhai_world::{Engine, EvalError};
    /// use std::sync::atomic::{AtomicU32, Ordering};
    /// use std::sync::Arc;
    ///
    /// let last = Arc::new(AtomicU32::new(0));
    /// let kept = Arc::clone(&last);
    /// let mut engine = Engine::new();
    /// engine.on_statement(move |line, _column| kept.store(line, Ordering::Relaxed));
    /// engine.run("let x = 1;\nx += 1;\n\nx;")?;
    /// assert_eq!(last.load(Ordering::Relaxed), 4);
    /// # Ok::<(), EvalError>(())
    /// ```
    pub fn on_statement(&mut self, call: impl Fn(u32, u32) + Send + Sync + 'static) -> &mut Engine {
        self.at_statement = Some(Box::new(call));
        self
    }

    /// Compiles a script, or says what is wrong with it. An unknown variable is an error only when
    /// the script runs.
    pub fn compile(&self, text: &str) -> Result<Ast, EvalError> {
        let ast = Ast::of(text);
        Scope::new()?.compile(&ast, self)?;
        Ok(ast)
    }

    /// Compiles a script for the variables of a scope, or says what is wrong with it. What
    /// `compile` returns can run over a scope, too: a run compiles a script again for the variables
    /// that it runs over.
    ///
    /// ```
    /// use rhai_world::{Engine, EvalError, Scope};
    ///
    /// let engine = Engine::new();
    /// let mut scope = Scope::of([("total", 1)])?;
    /// let text = "let add = |n| total += n; add.call(5); total";
    /// let ast = engine.compile_with_scope(&scope, text)?;
    /// assert_eq!(engine.eval_ast_with_scope::<i64>(&mut scope, &ast)?, 6);
    /// let missing = engine.eval_ast::<i64>(&ast).unwrap_err();
    /// assert_eq!(missing.to_string(), "variable not found: total (line 1, column 15)");
    /// assert_eq!(engine.eval_ast_with_scope::<i64>(&mut scope, &engine.compile(text)?)?, 11);
    /// # Ok::<(), EvalError>(())
    /// ```
    pub fn compile_with_scope(&self, scope: &Scope, text: &str) -> Result<Ast, EvalError> {
        let ast = Ast::of(text);
        let mut like = Scope::new()?;
        for name in scope.names()? {
            like.push(&name, ())?;
        }
        like.compile(&ast, self)?;
        Ok(ast)
    }

    /// Runs a script without variables, and returns the value of its last statement.
    pub fn eval<T: Wanted>(&self, text: &str) -> Result<T, EvalError> {
        self.eval_with_scope(&mut Scope::new()?, text)
    }

    /// Runs a script over the variables of a scope. Variables that the script declares are left in
    /// the scope.
    pub fn eval_with_scope<T: Wanted>(&self, scope: &mut Scope, text: &str) -> Result<T, EvalError> {
        self.eval_ast_with_scope(scope, &Ast::of(text))
    }

    /// Runs a compiled script without variables.
    pub fn eval_ast<T: Wanted>(&self, ast: &Ast) -> Result<T, EvalError> {
        self.eval_ast_with_scope(&mut Scope::new()?, ast)
    }

    /// Runs a compiled script over the variables of a scope. Variables that the script declares are
    /// left in the scope, also after an error.
    pub fn eval_ast_with_scope<T: Wanted>(&self, scope: &mut Scope, ast: &Ast) -> Result<T, EvalError> {
        self.start(scope, ast)?.finish()
    }

    /// Runs a script without variables, and ignores its value.
    pub fn run(&self, text: &str) -> Result<(), EvalError> {
        self.run_with_scope(&mut Scope::new()?, text)
    }

    /// Runs a script over the variables of a scope, and ignores its value.
    pub fn run_with_scope(&self, scope: &mut Scope, text: &str) -> Result<(), EvalError> {
        self.run_ast_with_scope(scope, &Ast::of(text))
    }

    /// Runs a compiled script without variables, and ignores its value.
    pub fn run_ast(&self, ast: &Ast) -> Result<(), EvalError> {
        self.run_ast_with_scope(&mut Scope::new()?, ast)
    }

    /// Runs a compiled script over the variables of a scope, and ignores its value.
    pub fn run_ast_with_scope(&self, scope: &mut Scope, ast: &Ast) -> Result<(), EvalError> {
        self.start(scope, ast)?.finish::<Unread>().map(drop)
    }

    /// Runs the statements of a script outside its functions, and then calls one of these
    /// functions. Afterwards the script's variables are gone, and those of the scope have the
    /// values that the script left in them.
    ///
    /// ```
    /// use rhai_world::{Engine, EvalError, Scope};
    ///
    /// let engine = Engine::new();
    /// let ast = engine.compile("fn double(x) { x * 2 }")?;
    /// assert_eq!(engine.call_fn::<i64>(&mut Scope::new()?, &ast, "double", (21,))?, 42);
    /// # Ok::<(), EvalError>(())
    /// ```
    pub fn call_fn<T: Wanted>(
        &self,
        scope: &mut Scope,
        ast: &Ast,
        name: &str,
        arguments: impl Arguments,
    ) -> Result<T, EvalError> {
        arguments.with_values(|values| Run::call_whole(self, scope, ast, name, values))?
    }

    /// Starts a run of a compiled script over the variables of a scope, for execution in pieces:
    /// see [`Run`].
    pub fn start<'a>(&'a self, scope: &'a mut Scope, ast: &Ast) -> Result<Run<'a>, EvalError> {
        Run::begin(self, scope, ast)
    }

    /// Starts a run that calls a function of a script at its end, as `call_fn` does, for execution
    /// in pieces.
    ///
    /// ```
    /// use rhai_world::{Engine, EvalError, Progress, Scope, Value};
    ///
    /// let engine = Engine::new();
    /// let ast = engine.compile("fn count(to) { let n = 0; while n < to { n += 1; } n }")?;
    /// let mut scope = Scope::new()?;
    /// let mut run = engine.start_fn(&mut scope, &ast, "count", (1_000,))?;
    /// let counted = loop {
    ///     if let Progress::Done(value) = run.go(100)? {
    ///         break value;
    ///     }
    /// };
    /// assert_eq!(counted, Value::Int(1_000));
    /// # Ok::<(), EvalError>(())
    /// ```
    pub fn start_fn<'a>(
        &'a self,
        scope: &'a mut Scope,
        ast: &Ast,
        name: &str,
        arguments: impl Arguments,
    ) -> Result<Run<'a>, EvalError> {
        Run::begin_call(self, scope, ast, name.to_owned().into(), arguments.into_values()?)
    }
}

/// What runs ask of the engine.
impl Engine {
    fn at_statement(&self, line: u32, column: u32) {
        if let Some(call) = &self.at_statement {
            call(line, column);
        }
    }

    /// Calls a registered function. It returns, fails or panics.
    fn call(&self, function: usize, call: &mut Call<'_>) -> Result<Result<Given, Refused>, Panic> {
        match self.functions.get(function) {
            Some(registered) => registered.call(call),
            None => Ok(Err(Refused::Ends(EvalError::Unexpected))),
        }
    }

    /// Passes a printed line on.
    fn print(&self, line: &str) -> std::io::Result<()> {
        match &self.print {
            Some(print) => print(line),
            None => writeln!(std::io::stdout().lock(), "{line}")?,
        }
        Ok(())
    }

    /// Passes a line of `debug` on.
    fn debug(&self, text: &str, line: u32, column: u32) {
        if let Some(debug) = &self.debug {
            debug(text, line, column);
        }
    }

    pub(crate) fn takes_debugs(&self) -> bool {
        self.debug.is_some()
    }

    pub(crate) fn names(&self) -> &str {
        &self.names
    }

    pub(crate) fn serial(&self) -> u64 {
        self.serial
    }

    pub(crate) fn stops_at_statements(&self) -> bool {
        self.at_statement.is_some()
    }

    pub(crate) fn limits(&self) -> Limits {
        self.limits
    }

    pub(crate) fn entries(&self) -> usize {
        self.entries
    }

    pub(crate) fn calls(&self) -> usize {
        self.calls
    }
}

impl Default for Engine {
    fn default() -> Engine {
        Engine::new()
    }
}

impl fmt::Debug for Engine {
    fn fmt(&self, f: &mut fmt::Formatter<'_>) -> fmt::Result {
        f.debug_struct("Engine")
            .field("functions", &self.functions.len())
            .field("limits", &self.limits)
            .field("entries", &self.entries)
            .field("watch", &self.watch)
            .field("calls", &self.calls)
            .finish_non_exhaustive()
    }
}
