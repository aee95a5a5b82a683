//! Runs in pieces.
mod common;

use rhai_world::{Array, Engine, EvalError, Function, Progress, Run, Saved, Scope, Value};
use std::panic::{catch_unwind, AssertUnwindSafe};
use std::sync::{Arc, Mutex};

#[test]
fn a_run_goes_on_by_as_many_operations_as_it_is_told() -> Result<(), EvalError> {
    let engine = Engine::new();
    let ast = engine.compile("let sum = 0; for n in 0..10_000 { sum += n; } sum")?;
    let mut scope = Scope::new()?;
    let mut run = engine.start(&mut scope, &ast)?;
    assert_eq!((run.go(0)?, run.operations(), run.line_column()), (Progress::Paused, 0, None));
    let mut pieces = 0;
    let value = loop {
        match run.go(100)? {
            Progress::Done(value) => break value,
            Progress::Paused => pieces += 1,
            Progress::Statement { .. } => panic!("it isn't to stop there"),
        }
        assert_eq!(run.operations(), 100 * pieces);
        assert_eq!(run.line_column().map(|(line, _)| line), Some(1));
    };
    // (the sum of the ints below 10,000; each iteration takes at least one operation)
    assert_eq!(value, Value::Int(9_999 * 10_000 / 2));
    assert!(pieces >= 100, "{pieces}");
    assert!(run.memory().held > 0);
    assert_eq!((run.go(100), run.stop_at_statements(true)), (Err(EvalError::Ended), Err(EvalError::Ended)));
    drop(run);
    assert_eq!(scope.get::<i64>("sum"), Some(49_995_000));
    Ok(())
}

#[test]
fn a_run_that_is_dropped_gives_the_variables_back() -> Result<(), EvalError> {
    let engine = Engine::new();
    let mut scope = Scope::new()?;
    scope.push("n", 0)?.push("name", "kept")?;
    let ast = engine.compile("let inside = 7; fn f(x) { loop { x += 1; } } loop { n += 1; if n > 1_000 { f(n); } }")?;
    let mut run = engine.start(&mut scope, &ast)?;
    assert_eq!(run.go(1_000)?, Progress::Paused);
    drop(run);
    let first = scope.get::<i64>("n").unwrap_or_default();
    assert!(first > 0 && first <= 1_000, "{first}");
    let mut run = engine.start(&mut scope, &ast)?;
    assert_eq!(run.go(100_000)?, Progress::Paused);
    drop(run);
    // (the second run was in the function, which has its own parameter)
    assert_eq!(scope.get::<i64>("n"), Some(1_001));
    assert_eq!(scope.get::<String>("name"), Some("kept".to_owned()));
    assert_eq!(scope.get::<i64>("inside"), Some(7));
    assert_eq!(engine.eval_with_scope::<i64>(&mut scope, "n + inside")?, 1_008);
    Ok(())
}

#[test]
fn runs_stop_at_statements_where_they_are_told() -> Result<(), EvalError> {
    let engine = Engine::new();
    let ast = engine.compile("let x = 1;\nif x == 1 {\n  x += 1;\n}\nx")?;
    let mut scope = Scope::new()?;
    let mut run = engine.start(&mut scope, &ast)?;
    run.stop_at_statements(true)?;
    for (line, column) in [(1, 1), (2, 1), (3, 3), (5, 1)] {
        assert_eq!(run.go(1_000)?, Progress::Statement { line, column });
        assert_eq!(run.line_column(), Some((line, column)));
    }
    assert_eq!(run.go(1_000)?, Progress::Done(Value::Int(2)));
    drop(run);
    let mut run = engine.start(&mut scope, &ast)?;
    run.stop_at_statements(true)?;
    assert_eq!(run.go(1_000)?, Progress::Statement { line: 1, column: 1 });
    run.stop_at_statements(false)?;
    assert_eq!(run.go(1_000)?, Progress::Done(Value::Int(2)));
    Ok(())
}

#[test]
fn functions_of_the_program_are_answered_meanwhile() -> Result<(), EvalError> {
    let mut engine = Engine::new();
    engine.register_fn("ask", |n: i64| if n == 2 { Err("not two") } else { Ok(n * 10) });
    let ast = engine.compile("let all = []; for n in 0..4 { try { all.push(ask(n)); } catch (why) { all.push(why); } } all")?;
    let mut scope = Scope::new()?;
    let mut run = engine.start(&mut scope, &ast)?;
    let all: Array = [Value::from(0), Value::from(10), Value::from("not two"), Value::from(30)].into_iter().collect();
    assert_eq!(run.go(u64::MAX)?, Progress::Done(all.into()));
    Ok(())
}

#[test]
fn a_run_that_pauses_at_a_call_has_its_result() -> Result<(), EvalError> {
    let mut engine = Engine::new();
    engine
        .register_fn("sum", |a: i64, is_added: bool, (): (), b: i64| if is_added { a + b } else { a })
        .register_fn("is_one", |n: i64| n == 1)
        .register_fn("nothing", || ())
        .register_fn("text_of", |n: i64| n.to_string());
    let ast = engine
        .compile("let all = []; for n in 0..3 { all.push([sum(n, n > 0, (), 7), is_one(n), nothing(), text_of(n)]); } all")?;
    let rows = [(0, false, "0"), (8, true, "1"), (9, false, "2")];
    let row = |(sum, is_one, text): (i64, bool, &str)| {
        Value::from(Array::from_iter([Value::Int(sum), Value::Bool(is_one), Value::Unit, Value::from(text)]))
    };
    let wanted = Value::from(Array::from_iter(rows.map(row)));
    for operations in [1, 2, 3, 5, 1_000] {
        let mut scope = Scope::new()?;
        let mut run = engine.start(&mut scope, &ast)?;
        let value = loop {
            match run.go(operations)? {
                Progress::Done(value) => break value,
                Progress::Paused => assert!(run.calls().len() == 1 && run.variables(0).is_ok()),
                Progress::Statement { .. } => panic!("it isn't to stop there"),
            }
        };
        assert_eq!(value, wanted);
    }
    Ok(())
}

#[test]
fn calls_go_on_by_pieces_too() -> Result<(), EvalError> {
    let engine = Engine::new();
    let ast = engine.compile("seen += 1; let own = 3; fn sum(to) { let sum = 0; for n in 0..to { sum += n; } sum }")?;
    let mut scope = Scope::new()?;
    scope.push("seen", 0)?;
    let mut run = engine.start_fn(&mut scope, &ast, "sum", (1_000,))?;
    let value = loop {
        if let Progress::Done(value) = run.go(50)? {
            break value;
        }
    };
    assert_eq!((value, run.operations() > 1_000), (Value::Int(499_500), true));
    drop(run);
    assert_eq!((scope.names()?, scope.get::<i64>("seen")), (vec!["seen".to_owned()], Some(1)));
    let missing = engine.start_fn(&mut scope, &ast, "sum", ())?.go(1_000);
    assert_eq!(missing, Err(EvalError::NoFunction { name: "sum".to_owned(), arguments: 0 }));
    assert_eq!(scope.len(), 1);
    Ok(())
}

#[test]
fn an_error_ends_a_run() -> Result<(), EvalError> {
    let engine = Engine::new();
    let ast = engine.compile("let x = 7;\nx + nowhere")?;
    let mut scope = Scope::new()?;
    let mut run = engine.start(&mut scope, &ast)?;
    let ended = run.go(1_000).unwrap_err();
    assert_eq!((ended.to_string().as_str(), ended.position()), ("variable not found: nowhere (line 2, column 5)", Some((2, 5))));
    assert_eq!((run.go(1_000), run.line_column()), (Err(EvalError::Ended), Some((2, 5))));
    drop(run);
    assert_eq!(scope.get::<i64>("x"), Some(7));
    Ok(())
}

#[test]
fn operations_are_limited_where_statements_are_told() -> Result<(), EvalError> {
    let mut engine = Engine::new();
    engine.on_statement(|_, _| {}).set_max_operations(1_000);
    assert!(matches!(engine.run("loop { let x = 1; }"), Err(EvalError::TooManyOperations { line: 1, .. })));
    Ok(())
}

fn lines_of(engine: &mut Engine) -> Arc<Mutex<Vec<String>>> {
    let lines = Arc::new(Mutex::new(Vec::new()));
    let kept = Arc::clone(&lines);
    engine.on_print(move |line| kept.lock().unwrap().push(line.to_owned()));
    lines
}

#[test]
fn what_is_printed_before_an_error_is_handed_on() {
    let mut engine = Engine::new();
    let lines = lines_of(&mut engine);
    assert!(matches!(engine.run("print(1); print(2); nowhere"), Err(EvalError::Runtime { .. })));
    assert_eq!(*lines.lock().unwrap(), ["1", "2"]);
}

#[test]
fn lines_of_debug_are_told_apart_and_in_order() -> Result<(), EvalError> {
    let text = "fn f(x) {\n    debug(x);\n    x + 1\n}\nprint(\"a\\nb\");\ndebug(\"c\\nd\");\nprint(f('e'.to_int() - 100));\ndebug([(), 'x']);";
    let expected = ["a", "b", "debug 6 \"c\\nd\"", "debug 2 1", "2", "debug 8 [(), 'x']"];
    let mut engine = Engine::new();
    let lines = lines_of(&mut engine);
    let kept = Arc::clone(&lines);
    engine.on_debug(move |text, line, _| kept.lock().expect("no panic").push(format!("debug {line} {text}")));
    let mut scope = Scope::new()?;
    engine.run_with_scope(&mut scope, text)?;
    assert_eq!(*lines.lock().expect("no panic"), expected);

    // (the same an operation at a time; another engine over the scope gets all lines as before)
    lines.lock().expect("no panic").clear();
    let ast = engine.compile(text)?;
    let mut run = engine.start(&mut scope, &ast)?;
    while run.go(1)? == Progress::Paused {}
    drop(run);
    assert_eq!(*lines.lock().expect("no panic"), expected);
    let mut plain = Engine::new();
    let lines = lines_of(&mut plain);
    plain.run_with_scope(&mut scope, "debug(\"c\"); print(1);")?;
    assert_eq!(*lines.lock().expect("no panic"), ["\"c\"", "1"]);
    Ok(())
}

#[test]
fn a_panic_of_what_is_called_leaves_the_variables() -> Result<(), EvalError> {
    let mut engine = Engine::new();
    engine.on_print(|line| assert_ne!(line, "2"));
    let mut scope = Scope::new()?;
    let panicked = catch_unwind(AssertUnwindSafe(|| engine.run_with_scope(&mut scope, "let x = 7; print(1); print(2);")));
    assert!(panicked.is_err());
    assert_eq!(scope.get::<i64>("x"), Some(7));
    engine.on_print(|_| {});
    assert_eq!(engine.eval_with_scope::<i64>(&mut scope, "x + 1")?, 8);
    Ok(())
}

#[test]
fn an_error_tells_the_functions_under_way() {
    let mut engine = Engine::new();
    engine.set_max_operations(10_000);
    let text = "fn f(n) {\n    if n == 0 { loop {} }\n    let m = f(n - 1);\n    m\n}\nlet g = |n| f(n) + 1;\nlet x = g.call(1);";
    let error = engine.run(text).unwrap_err();
    assert!(matches!(error, EvalError::TooManyOperations { line: 2, .. }), "{error:?}");
    let calls: Vec<_> = error.calls().iter().map(|call| (call.function.get(..5).unwrap_or(&call.function), call.line)).collect();
    assert_eq!(calls, [("f", 2), ("f", 3), ("anon$", 6), ("", 7)]);
    let deep = engine.run("fn f(n) { 1 + f(n + 1) }\nf(0)").unwrap_err();
    assert_eq!(deep.calls().len(), 64);
    assert!(deep.calls().iter().all(|call| call.function == "f" && call.line == 1), "{deep:?}");
    assert!(engine.compile("let").unwrap_err().calls().is_empty());
}

#[test]
fn a_run_that_stands_shows_its_functions_and_their_variables() -> Result<(), EvalError> {
    let engine = Engine::new();
    let ast = engine.compile("let a = 1;\nlet f = |b| {\n    let a = [a, b];\n    a\n};\nlet c = f.call(2);\nc")?;
    let mut scope = Scope::new()?;
    let mut run = engine.start(&mut scope, &ast)?;
    run.stop_at_statements(true)?;
    while !matches!(run.go(1_000)?, Progress::Statement { line: 4, .. }) {}
    let inner = run.variables(0)?;
    let (own, captured) = (Value::from(vec![1, 2]), Value::Int(1));
    assert_eq!((&inner[0].0[..], &inner[0].1), ("a", &own));
    assert!(inner.contains(&("b".to_owned(), Value::Int(2))) && inner.contains(&("a".to_owned(), captured.clone())));
    let outer: Vec<_> = run.variables(1)?.into_iter().map(|(name, _)| name).collect();
    assert_eq!(
        (outer, run.variables(1)?[1].1 == captured, run.variables(2)?.len()),
        (vec!["f".to_owned(), "a".to_owned()], true, 0)
    );
    let calls: Vec<_> = run.calls().iter().map(|call| (call.line, call.function.is_empty())).collect();
    assert_eq!(calls, [(4, false), (6, true)]);
    while !matches!(run.go(1_000)?, Progress::Done(_)) {}
    assert_eq!((run.calls().len(), run.variables(0)?.len()), (0, 0));
    Ok(())
}

#[test]
fn a_saved_scope_has_all_that_its_values_share() -> Result<(), EvalError> {
    let engine = Engine::new();
    let text = "
        if step == 0 {
            let a = [1, #{b: 2}];
            list = a;
            add = |x| { total += x; total };
            same = || total;
            loop_of = [];
            let holder = || loop_of;
            loop_of.push(holder);
        } else {
            found = add.call(40) + same.call();
        }";
    let ast = engine.compile(text)?;
    let mut scope = Scope::new()?;
    for name in ["list", "add", "same", "loop_of", "found"] {
        scope.push(name, ())?;
    }
    scope.push("step", 0)?.push("total", 1)?;
    engine.run_ast_with_scope(&mut scope, &ast)?;
    let saved = scope.save()?;
    assert_eq!(saved, Saved::from_bytes(saved.as_bytes().to_vec()));
    for _ in 0..2 {
        let mut again = saved.restore()?;
        assert_eq!(again.save()?, saved);
        assert_eq!(again.names()?, scope.names()?);
        again.set("step", 1)?;
        engine.run_ast_with_scope(&mut again, &ast)?;
        assert_eq!((again.get::<i64>("found"), again.get::<i64>("total")), (Some(82), Some(41)));
        assert_eq!(again.value("list")?, scope.value("list")?);
    }
    assert_eq!(scope.get::<i64>("total"), Some(1));
    for cut in 0..saved.as_bytes().len() {
        let part = Saved::from_bytes(saved.as_bytes()[..cut].to_vec());
        assert!(matches!(part.restore(), Err(EvalError::NotSaved)), "{cut}");
    }
    Ok(())
}

#[test]
fn many_shared_places_and_deep_values_are_saved() -> Result<(), EvalError> {
    let engine = Engine::new();
    let count = common::levels() / 50;
    let text = format!(
        "for i in 0..{count} {{ let x = i; all.push(|| x); all.push(|| x); }}
        for i in 0..2_000 {{ deep = [deep]; }}"
    );
    let mut scope = Scope::of([("all", Value::Array(Array::default())), ("deep", Value::Unit)])?;
    engine.run_with_scope(&mut scope, &text)?;
    let saved = scope.save()?;
    let again = saved.restore()?;
    assert_eq!(again.save()?, saved);
    assert_eq!(again.value("deep")?, scope.value("deep")?);
    Ok(())
}

/// Scripts whose functions are called, each with an argument for `f`.
const CALLED: [(&str, i64); 8] = [
    ("fn f(x) { x * 2 }", 21),
    ("fn f(x) { let s = 0; for i in 0..x { s += i; } print(s); s }", 1_000),
    ("fn f(x) { if x == 0 { 0 } else { 1 + f(x - 1) } }", 50),
    ("fn f(x) { ask(x) + ask(x + 1) }", 3),
    ("fn f(x) { print(\"before\"); throw \"no \" + x; }", 4),
    ("fn f(x) { let a = []; while a.len() < x { a.push(\"text\"); } a.len() }", 40),
    ("let base = 7; fn f(x) { x + 1 }", 5),
    ("fn g(x) { x }", 6),
];

fn a_printing_engine(printed: &Arc<Mutex<String>>) -> Engine {
    let mut engine = Engine::new();
    let kept = Arc::clone(printed);
    engine.on_print(move |line| kept.lock().unwrap().push_str(line)).register_fn("ask", |n: i64| n * 10);
    engine
}

/// How a call ended: its value or error, what it printed, and the variables afterwards.
type End = (Result<Value, EvalError>, String, Vec<String>);

/// Calls `f`, at once or in pieces, with at most this many operations.
fn called(text: &str, argument: i64, operations: u64, is_at_once: bool) -> Result<End, EvalError> {
    let printed = Arc::default();
    let mut engine = a_printing_engine(&printed);
    engine.set_max_operations(operations);
    let ast = engine.compile(text)?;
    let mut scope = Scope::of([("before", 1)])?;
    let value = if is_at_once {
        engine.call_fn(&mut scope, &ast, "f", (argument,))
    } else {
        in_pieces(engine.start_fn(&mut scope, &ast, "f", (argument,))?)
    };
    let printed = printed.lock().unwrap().clone();
    Ok((value, printed, scope.names()?))
}

fn in_pieces(mut run: Run<'_>) -> Result<Value, EvalError> {
    loop {
        if let Progress::Done(value) = run.go(3)? {
            return Ok(value);
        }
    }
}

#[test]
fn a_function_called_at_once_ends_as_one_in_pieces() -> Result<(), EvalError> {
    let (mut values, mut errors) = (0, 0);
    for (text, argument) in CALLED {
        for operations in (1..60).chain([300, 2_000, 0]) {
            let ends = [true, false].map(|is_at_once| called(text, argument, operations, is_at_once));
            assert_eq!(ends[0], ends[1], "{text} with {operations} operations");
            match &ends[0] {
                Ok((Ok(_), _, names)) => {
                    assert_eq!(names, &["before"]);
                    values += 1;
                }
                Ok((Err(_), _, _)) => errors += 1,
                Err(error) => panic!("{error}"),
            }
        }
    }
    // (the last script has no such function, the one before it fails as soon as it is called)
    assert!(values > 100 && errors > 100, "{values} and {errors}");
    Ok(())
}

#[test]
fn a_function_called_at_once_uses_what_the_scope_has() -> Result<(), EvalError> {
    let engine = Engine::new();
    let ast = engine.compile("fn first(list) { list.push(1); list.len() } fn text() { \"a text\" } fn none() { }")?;
    let mut scope = Scope::new()?;
    for _ in 0..3 {
        let list: Array = vec![Value::Int(7), Value::from("x")].into();
        assert_eq!(engine.call_fn::<i64>(&mut scope, &ast, "first", (list,))?, 3);
        assert_eq!(engine.call_fn::<String>(&mut scope, &ast, "text", ())?, "a text");
        assert_eq!(engine.call_fn::<()>(&mut scope, &ast, "none", ()), Ok(()));
    }
    // (a variable more: the script is compiled again)
    scope.push("later", 5)?;
    assert_eq!(engine.call_fn::<String>(&mut scope, &ast, "text", ())?, "a text");
    assert_eq!(scope.get::<i64>("later"), Some(5));
    let mut other = Engine::new();
    other.set_max_memory(1_000_000);
    let grows = other.compile("fn grows() { let a = [0]; loop { a += a; } }")?;
    assert!(matches!(other.call_fn::<()>(&mut scope, &grows, "grows", ()), Err(EvalError::OutOfMemory { .. })));
    assert_eq!(scope.get::<i64>("later"), Some(5));
    Ok(())
}

#[test]
fn variables_are_read_and_written_between_calls_at_once() -> Result<(), EvalError> {
    let engine = Engine::new();
    let ast = engine.compile("fn sum(a, b) { a + b } fn flips(truth) { !truth } fn counter() { let n = 0; || { n += 1; n } }")?;
    let sum = |scope: &mut Scope| engine.call_fn::<i64>(scope, &ast, "sum", (40, 2));
    let mut scope = Scope::of([("x", 1), ("y", 2)])?;
    // (each is the first to use the scope after a call whose run keeps the variables)
    assert_eq!(sum(&mut scope)?, 42);
    assert_eq!(scope.len(), 2);
    assert_eq!(sum(&mut scope)?, 42);
    assert_eq!(scope.names()?, ["x", "y"]);
    assert_eq!(sum(&mut scope)?, 42);
    assert_eq!(scope.get::<i64>("y"), Some(2));
    assert_eq!(sum(&mut scope)?, 42);
    scope.set("y", 3)?;
    assert_eq!(sum(&mut scope)?, 42);
    assert_eq!(scope.save()?.restore()?.get::<i64>("y"), Some(3));
    assert_eq!(sum(&mut scope)?, 42);
    assert_eq!(scope.snapshot()?.variables().count(), 2);
    assert_eq!(sum(&mut scope)?, 42);
    assert_eq!(engine.eval_with_scope::<i64>(&mut scope, "x + y")?, 4);
    assert_eq!(sum(&mut scope)?, 42);
    scope.rewind(1)?;
    assert_eq!(sum(&mut scope)?, 42);
    scope.push("z", 5)?;
    assert_eq!(scope.names()?, ["x", "z"]);
    assert!(!engine.call_fn::<bool>(&mut scope, &ast, "flips", (true,))?);
    // (what doesn't cross in numbers, a wrong count, and a value of another type leave it as it was)
    assert!(engine.call_fn::<String>(&mut scope, &ast, "sum", ("a", 'b')).is_ok_and(|text| text == "ab"));
    assert!(matches!(engine.call_fn::<i64>(&mut scope, &ast, "sum", (1,)), Err(EvalError::NoFunction { arguments: 1, .. })));
    assert!(matches!(engine.call_fn::<bool>(&mut scope, &ast, "sum", (1, 2)), Err(EvalError::Mismatch(_))));
    assert_eq!(sum(&mut scope)?, 42);
    assert_eq!(scope.iter().collect::<Result<Vec<_>, _>>()?.len(), 2);
    // (a function keeps what it captured, from one call to the next)
    let counter: Function = engine.call_fn(&mut scope, &ast, "counter", ())?;
    assert_eq!(sum(&mut scope)?, 42);
    assert_eq!(counter.call::<i64>(&engine, &mut scope, &ast, ())?, 1);
    assert_eq!(sum(&mut scope)?, 42);
    assert_eq!(counter.call::<i64>(&engine, &mut scope, &ast, ())?, 2);
    Ok(())
}

#[test]
fn calls_at_once_count_their_own_operations() -> Result<(), EvalError> {
    let mut engine = Engine::new();
    engine.set_max_operations(1_000);
    let ast = engine
        .compile("fn count(to) { let n = 0; while n < to { n += 1; } n } fn deep(n) { if n == 0 { 0 } else { deep(n - 1) } }")?;
    let mut scope = Scope::new()?;
    for _ in 0..20 {
        assert_eq!(engine.call_fn::<i64>(&mut scope, &ast, "count", (100,))?, 100);
    }
    assert!(matches!(engine.call_fn::<i64>(&mut scope, &ast, "count", (10_000,)), Err(EvalError::TooManyOperations { .. })));
    assert_eq!(engine.call_fn::<i64>(&mut scope, &ast, "deep", (10,))?, 0);
    Ok(())
}

#[test]
fn a_call_at_once_may_print_fail_or_have_another_type() -> Result<(), EvalError> {
    let mut engine = Engine::new();
    let lines = lines_of(&mut engine);
    let ast = engine.compile("fn next(x) { x + 1 }\nfn shown(x) { print(x); x }\nfn text() { \"a\" }\nfn fails() { 1 / 0 }")?;
    let mut scope = Scope::new()?;
    for round in 0..3 {
        assert_eq!(engine.call_fn::<i64>(&mut scope, &ast, "next", (round,))?, round + 1);
        assert_eq!(engine.call_fn::<i64>(&mut scope, &ast, "shown", (round,))?, round);
        assert_eq!(engine.call_fn::<i64>(&mut scope, &ast, "next", vec![Value::Int(round)])?, round + 1);
        assert!(matches!(engine.call_fn::<i64>(&mut scope, &ast, "text", ()), Err(EvalError::Mismatch(_))));
        assert_eq!(engine.call_fn::<String>(&mut scope, &ast, "text", ())?, "a");
        assert!(matches!(engine.call_fn::<i64>(&mut scope, &ast, "fails", ()), Err(EvalError::Runtime { line: 4, .. })));
        assert!(matches!(engine.call_fn::<i64>(&mut scope, &ast, "next", ()), Err(EvalError::NoFunction { .. })));
    }
    assert_eq!(*lines.lock().unwrap(), ["0", "1", "2"]);
    Ok(())
}
