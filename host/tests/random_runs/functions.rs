//! An engine with random limits, and functions of the program: each records its calls.
use crate::random::Random;
use rhai_world::{Array, Call, Engine, EvalError, Function, Map, Value};
use std::cell::RefCell;
use std::ops::Range;
use std::panic::resume_unwind;
use std::time::Duration;

/// The most operations of a run: random scripts may never end.
const OPERATIONS: [u64; 6] = [20, 300, 1_000, 3_000, 3_000, 10_000];

/// The limits of an engine; 0 means none.
#[derive(Clone, Debug)]
pub struct Limits {
    operations: u64,
    memory: usize,
    output: u64,
    time: Duration,
    calls: usize,
    sizes: usize,
    /// Whether the program watches lines, statements and progress.
    watches: bool,
    /// Whether the callback for lines panics at some of them.
    print_panics: bool,
}

impl Limits {
    pub fn new(random: &mut Random) -> Limits {
        let mut or = |n: u64, few: u64, most: u64| if random.one_in(n) { few + random.below(most - few) } else { 0 };
        Limits {
            memory: or(4, 1_000, 200_000) as usize,
            output: or(8, 1, 300),
            time: if or(40, 1, 2) == 1 { Duration::from_micros(or(2, 1, 500) + 1) } else { Duration::ZERO },
            calls: 500 - or(3, 1, 499) as usize,
            sizes: or(6, 1, 60) as usize,
            watches: or(3, 1, 2) == 1,
            print_panics: or(20, 1, 2) == 1,
            operations: random.pick(&OPERATIONS),
        }
    }

    /// Whether a run does the same each time, whatever its pieces are. Time and memory depend on the machine, and what is printed is
    /// passed on at the end of a piece.
    pub fn are_exact(&self) -> bool {
        self.memory == 0 && self.output == 0 && self.time.is_zero() && !self.print_panics
    }

    pub fn engine(&self) -> Engine {
        let mut engine = Engine::new();
        plain(&mut engine);
        changing(&mut engine);
        calling(&mut engine);
        failing(&mut engine);
        engine
            .set_max_operations(self.operations)
            .set_max_memory(self.memory)
            .set_max_output(self.output)
            .set_max_time(self.time)
            .set_max_call_levels(self.calls)
            .set_max_string_size(self.sizes)
            .set_max_array_size(self.sizes)
            .set_max_map_size(self.sizes);
        let panics = self.print_panics;
        engine.on_print(move |line| {
            note(|| format!("> {line}"));
            if panics && line.len() % 7 == 3 {
                resume_unwind(Box::new(Expected));
            }
        });
        if self.watches {
            let interrupt = engine.interrupt();
            engine.register_fn("pull", move || interrupt.pull()).on_progress(|_| None).on_statement(|line, column| {
                assert!(line > 0 && column > 0);
            });
        }
        engine
    }
}

/// What a function of the program panics with here.
pub struct Expected;

thread_local! {
    static LOG: RefCell<Vec<String>> = const { RefCell::new(Vec::new()) };
    static KEPT: RefCell<Vec<Function>> = const { RefCell::new(Vec::new()) };
}

/// Takes what the functions of the program recorded on this thread.
pub fn take_log() -> Vec<String> {
    LOG.take()
}

/// Takes the functions that they kept on this thread.
pub fn take_kept() -> Vec<Function> {
    KEPT.take()
}

fn note(line: impl FnOnce() -> String) {
    LOG.with_borrow_mut(|log| {
        if log.len() < 1_000 {
            log.push(line());
        }
    });
}

fn keep(function: Function) {
    KEPT.with_borrow_mut(|kept| {
        if kept.len() < 6 {
            kept.push(function);
        }
    });
}

/// Functions that only convert their arguments.
fn plain(engine: &mut Engine) {
    engine
        .register_fn("sum", || 0)
        .register_fn("sum", |a: i64| a)
        .register_fn("sum", |a: i64, b: i64| a.wrapping_add(b))
        .register_fn("sum", |a: i64, b: i64, c: i64| a ^ b ^ c)
        .register_fn("sum", |a: i64, b: i64, c: i64, d: i64| a ^ b ^ c ^ d)
        .register_fn("sum", |a: i64, b: i64, c: i64, d: i64, e: i64| a ^ b ^ c ^ d ^ e)
        .register_fn("sum", |a: i64, b: i64, c: i64, d: i64, e: i64, f: i64| a ^ b ^ c ^ d ^ e ^ f)
        .register_fn("small", |n: u8| n)
        .register_fn("try_half", |n: Option<i64>| n.filter(|n| n % 2 == 0).map(|n| n / 2))
        .register_fn("join", |text: String, n: i64, end: char| format!("{:.20}{n}{end}", text))
        .register_fn("ranged", |range: Range<i64>| range.collect::<Vec<i64>>())
        .register_fn("pair", |a: Value, b: Value| vec![a, b])
        .register_fn("fields", |mut fields: Map| {
            fields.insert("more", Value::from(fields.len() as i64));
            fields
        })
        .register_fn("echo", |value: Value| {
            note(|| format!("echo {:.100}", format!("{value:?}")));
            value
        })
        .register_fn("maybe", |value: Value| (value != Value::Unit).then_some(value))
        .register_fn("pull", || ());
}

/// Functions that change their first argument.
fn changing(engine: &mut Engine) {
    engine
        .register_fn("grow", |items: &mut Array, item: Value| items.push(item))
        .register_fn("bump", |n: &mut i64| *n = n.wrapping_add(1))
        .register_fn("tweak", |value: &mut Value| {
            note(|| format!("tweak {:.100}", format!("{value:?}")));
            *value = Value::from(vec![7, 8]);
        })
        .register_fn("touch", |fields: &mut Map, key: String| {
            fields.insert(format!("{key:.10}"), Value::Unit);
        })
        .register_fn("spoil", |items: &mut Array| {
            *items = Array::default();
            Err::<(), _>("spoiled")
        })
        .register_fn("grow_by", |call: &mut Call, items: &mut Array, made: Function| -> Result<(), EvalError> {
            items.push(call.call::<Value>(&made, ())?);
            Ok(())
        });
}

/// Functions that call functions of the script, or hold them.
fn calling(engine: &mut Engine) {
    engine
        .register_fn("each", |call: &mut Call, items: Array, f: Function| -> Result<(), EvalError> {
            items.into_iter().try_for_each(|item| called::<Value>(call, &f, item).map(drop))
        })
        .register_fn("apply", |call: &mut Call, f: Function, value: Value| called::<Value>(call, &f, value))
        .register_fn("twice", |call: &mut Call, f: Function, n: i64| -> Result<i64, EvalError> {
            let once = called::<i64>(call, &f, Value::from(n))?;
            f.call_within_context(call, (once,))
        })
        .register_fn("by_name", |call: &mut Call, name: String, n: i64| call.call_fn::<Value>(&name, (n,)))
        .register_fn("swallow", |call: &mut Call, f: Function| call.call::<Value>(&f, ()).is_ok())
        .register_fn("or_else", |call: &mut Call, f: Function, other: i64| call.call::<i64>(&f, ()).unwrap_or(other))
        .register_fn("inside", |call: &mut Call, n: i64| -> Result<Value, EvalError> {
            let operations = call.operations();
            let value = call.engine().eval::<Value>(&format!("let a = [{n}]; keep(|p| p + {n}); a.grow(a); a.len() + sum({n})"));
            assert_eq!(operations, call.operations());
            value
        })
        .register_fn("keep", keep)
        .register_fn("kept", |number: u8, other: Function| {
            KEPT.with_borrow(|kept| kept.get(usize::from(number)).cloned()).unwrap_or(other)
        })
        .register_fn("same", |f: Function| f)
        .register_fn("place", |call: &mut Call| call.line_column().map(|(line, column)| line * 100 + column))
        .register_fn("operations", |call: &mut Call| call.operations());
}

/// Calls a function of the script, whose operations must count.
fn called<T: rhai_world::Wanted>(call: &mut Call<'_>, f: &Function, value: Value) -> Result<T, EvalError> {
    let before = call.operations();
    let value = call.call::<T>(f, (value,));
    assert!(call.operations() > before || value.is_err(), "a call without operations");
    value
}

/// Functions that fail or panic.
fn failing(engine: &mut Engine) {
    engine
        .register_fn("half", |n: i64| if n % 2 == 0 { Ok(n / 2) } else { Err(format!("{n} is odd")) })
        .register_fn("panics", |n: i64| {
            if n % 3 == 0 {
                resume_unwind(Box::new(Expected));
            }
            n
        })
        .register_fn("panics_within", |call: &mut Call, f: Function, n: i64| -> Result<i64, EvalError> {
            let n = call.call::<i64>(&f, (n,))?;
            resume_unwind(Box::new(n));
        });
}

/// Sets the functions that are kept on this thread.
pub fn set_kept(functions: Vec<Function>) {
    KEPT.set(functions);
}
