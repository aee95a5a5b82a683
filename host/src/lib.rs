//! Embeds scripts of a subset of rhai in a Rust program. Every call of the library below is proved;
//! the script values of that library can also be used alone.
//!
//! # The first ten minutes
//!
//! An [`Engine`] runs a script, and returns its value as a Rust type:
//!
//! ```
//! use rhai_world::{Engine, EvalError};
//!
//! let engine = Engine::new();
//! assert_eq!(engine.eval::<i64>("let sum = 0; for n in 1..=4 { sum += n; } sum")?, 10);
//! assert_eq!(engine.eval::<Vec<String>>("[\"a\", \"b\" + 'c']")?, ["a", "bc"]);
//! # Ok::<(), EvalError>(())
//! ```
//!
//! Scripts call functions of the program. An error is thrown at the call:
//!
//! ```
//! use rhai_world::{Engine, EvalError};
//!
//! let mut engine = Engine::new();
//! engine.register_fn("price", |of: &str, amount: i64| match of {
//!     "apple" => Ok(3 * amount),
//!     other => Err(format!("no price of {other}")),
//! });
//! assert_eq!(engine.eval::<i64>("price(\"apple\", 2)")?, 6);
//! assert_eq!(engine.eval::<String>("try { price(\"pear\", 1) } catch (why) { why }")?, "no price of pear");
//! # Ok::<(), EvalError>(())
//! ```
//!
//! Functions of a script come as [`Function`]. The program can keep them, and call them while the
//! script waits or later:
//!
//! ```
//! use rhai_world::{Call, Engine, EvalError, Function, Scope};
//!
//! let mut engine = Engine::new();
//! engine.register_fn("each", |call: &mut Call, items: Vec<i64>, f: Function| -> Result<(), EvalError> {
//!     items.into_iter().try_for_each(|item| call.call(&f, (item,)))
//! });
//! let ast = engine.compile("let sum = 0; each([1, 2, 3], |n| sum += n); |n| sum * n")?;
//! let mut scope = Scope::new()?;
//! let times: Function = engine.eval_ast_with_scope(&mut scope, &ast)?;
//! assert_eq!(times.call::<i64>(&engine, &mut scope, &ast, (7,))?, 42);
//! # Ok::<(), EvalError>(())
//! ```
//!
//! The variables of a [`Scope`] outlive a run, and an [`Ast`] is a compiled script, for many runs:
//!
//! ```
//! use rhai_world::{Engine, EvalError, Scope};
//!
//! let engine = Engine::new();
//! let ast = engine.compile("stock -= sold; fn is_low(stock) { stock < 10 }")?;
//! let mut scope = Scope::of([("stock", 30), ("sold", 11)])?;
//! engine.run_ast_with_scope(&mut scope, &ast)?;
//! engine.run_ast_with_scope(&mut scope, &ast)?;
//! assert_eq!(scope.get::<i64>("stock"), Some(8));
//! assert!(engine.call_fn::<bool>(&mut Scope::of([("stock", 0), ("sold", 0)])?, &ast, "is_low", (8,))?);
//! # Ok::<(), EvalError>(())
//! ```
//!
//! [`Scope::save`] makes plain data of a scope, for a file or another thread. With [`Objects`] scripts
//! hold values of the program's own types.
//!
//! An error has a name, a position and the active functions, for the program and for the author of the
//! script:
//!
//! ```
//! use rhai_world::{Engine, EvalError};
//!
//! let text = "let x = 1;\nx + nowhere";
//! let error = Engine::new().run(text).unwrap_err();
//! assert!(matches!(error, EvalError::Runtime { line: 2, column: 5, .. }));
//! println!("{}", error.render(text));
//! ```
//!
//! An untrusted script gets limits, which it can't catch. Its variables keep their values after
//! each of these errors:
//!
//! ```
//! use rhai_world::{Engine, EvalError};
//! use std::time::Duration;
//!
//! let mut engine = Engine::new();
//! engine
//!     .set_max_operations(10_000_000)
//!     .set_max_time(Duration::from_secs(5))
//!     .set_max_memory(16 << 20)
//!     .set_max_output(1 << 20);
//! assert!(matches!(engine.run("let a = [1]; loop { a += a; }"), Err(EvalError::OutOfMemory { .. })));
//! let interrupt = engine.interrupt();
//! std::thread::spawn(move || interrupt.pull());
//! # Ok::<(), EvalError>(())
//! ```
//!
//! A program that has other work executes a [`Run`] in pieces. Between these, [`Run::calls`] and
//! [`Run::variables`] look inside:
//!
//! ```
//! use rhai_world::{Engine, EvalError, Progress, Scope, Value};
//!
//! let engine = Engine::new();
//! let ast = engine.compile("let n = 0; while n < 1_000 { n += 1; } n")?;
//! let mut scope = Scope::new()?;
//! let mut run = engine.start(&mut scope, &ast)?;
//! while run.go(100)? == Progress::Paused {
//!     // other work
//! }
//! drop(run);
//! assert_eq!(scope.get::<i64>("n"), Some(1_000));
//! # Ok::<(), EvalError>(())
//! ```
//!
//! [`from_rhai_and_mlua`] maps the names of rhai and mlua to those here.
//!
//! # Below scripts
//!
//! A [`World`] is a store of shared cells, named values, and a hand: a list of values that commands
//! name by position. A [`Journal`] records commands as lines, and [`Script`] runs a script alone.
//!
//! ```
//! use rhai_world::{Limits, World};
//!
//! let mut world = World::new(Limits::default())?;
//! world.put_int(7)?;
//! world.share(0)?;
//! world.copy(0)?;
//! world.write_int(1, 9)?;
//! assert_eq!(world.as_int(0)?, 9);
//! assert_eq!(world.show(0)?, "9 (shared)");
//! # Ok::<(), rhai_world::Error>(())
//! ```
//!
//! A refused command is an error and changes nothing:
//!
//! ```
//! use rhai_world::{Error, Limits, Refusal, World};
//!
//! let mut world = World::new(Limits::default())?;
//! assert_eq!(world.drop(), Err(Error::Refused(Refusal::NoValue)));
//! # Ok::<(), Error>(())
//! ```
//!
//! # What to expect
//!
//! Nothing here panics, except the program's own callbacks for lines, statements and progress. A
//! failed allocation is an error, except where a [`Value`] is cloned, compared, or converted from
//! or to a Rust type: there it aborts the program, as in [`Vec`]. A calling thread needs [`STACK`]
//! bytes of stack, and [`Script::STACK`] if it runs scripts.
#![deny(
    missing_docs,
    unsafe_code,
    unsafe_op_in_unsafe_fn,
    clippy::undocumented_unsafe_blocks,
    clippy::multiple_unsafe_ops_per_block
)]

mod answer;
mod answers;
mod commands;
mod engine;
mod error;
pub mod from_rhai_and_mlua;
mod journal;
mod kinds;
mod limits;
mod looks;
mod memory;
mod names;
mod render;
mod script;
mod snapshot;
mod spelling;
#[allow(missing_docs)]
mod sys;
mod value;
mod world;

pub use answer::{Answer, ArithmeticFault, Refusal, SizeKind};
pub use commands::Command;
pub use engine::{
    Answers, Arguments, Ast, Call, CallPlace, Engine, EvalError, Found, Function, HostFn, Interrupt, Object, Objects, Parameter,
    Progress, Run, Saved, Scope, Variables, Wanted,
};
pub use error::Error;
pub use journal::Journal;
pub use kinds::{Operator, Type};
pub use limits::Limits;
pub use looks::{Entries, Entry, Hand};
pub use memory::Memory;
pub use names::{Name, Place};
pub use script::{Script, ScriptError};
pub use snapshot::{Seen, SeenCall, SeenFields, SeenItems, SeenVariables, Shape, Snapshot};
#[cfg(feature = "faults")]
pub use sys::refuse;
pub use value::{Array, Fields, FromItem, IntoItem, Map, Misfit, NoIntError, TryFromValueError, Value};
pub use world::World;

/// How many bytes of stack a call of a [`World`] needs, however deep values are nested, as long as
/// allocations succeed; a run of a [`Script`] needs [`Script::STACK`]. `SAFETY.md` says how both
/// are tested.
pub const STACK: usize = 512 * 1024;
