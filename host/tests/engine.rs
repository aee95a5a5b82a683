//! Embedded scripts.
use rhai_world::{Array, Engine, EvalError, Scope, Value};
use std::sync::atomic::{AtomicI64, Ordering};
use std::sync::{Arc, Mutex};

#[test]
fn values_come_back_as_what_they_are() -> Result<(), EvalError> {
    let engine = Engine::new();
    assert_eq!(engine.eval::<i64>("40 + 2")?, 42);
    assert!(engine.eval::<bool>("1 < 2")?);
    assert_eq!(engine.eval::<String>("\"a\" + 'b'")?, "ab");
    assert_eq!(engine.eval::<char>("'x'")?, 'x');
    engine.eval::<()>("let x = 1;")?;
    let array: Array = [Value::from(1), Value::from("two")].into_iter().collect();
    assert_eq!(engine.eval::<Array>("[1, \"two\"]")?, array);
    assert_eq!(engine.eval::<Value>("#{a: 1}.a")?, Value::Int(1));
    let wrong = engine.eval::<i64>("\"text\"").unwrap_err();
    assert_eq!(wrong.to_string(), "the value is a text, and i64 was wanted");
    Ok(())
}

#[test]
fn errors_have_their_places() {
    let engine = Engine::new();
    let syntax = engine.compile("let x = ;").unwrap_err();
    assert!(matches!(syntax, EvalError::Syntax { line: 1, column: 9, .. }), "{syntax:?}");
    let fault = engine.run("let x = 1;\nx + nowhere").unwrap_err();
    assert_eq!(fault.to_string(), "variable not found: nowhere (line 2, column 5)");
    assert_eq!(fault.position(), Some((2, 5)));
}

#[test]
fn functions_of_every_number_of_parameters() -> Result<(), EvalError> {
    let mut engine = Engine::new();
    engine
        .register_fn("zero", || 0)
        .register_fn("sum", |a: i64| a)
        .register_fn("sum", |a: i64, b: i64| a + b)
        .register_fn("sum", |a: i64, b: i64, c: i64| a + b + c)
        .register_fn("sum", |a: i64, b: i64, c: i64, d: i64| a + b + c + d)
        .register_fn("sum", |a: i64, b: i64, c: i64, d: i64, e: i64| a + b + c + d + e)
        .register_fn("sum", |a: i64, b: i64, c: i64, d: i64, e: i64, f: i64| a + b + c + d + e + f)
        .register_fn("describe", |value: Value| format!("{value:?}"));
    let text = "[zero(), sum(1), sum(1, 2), sum(1, 2, 3), sum(1, 2, 3, 4), sum(1, 2, 3, 4, 5), sum(1, 2, 3, 4, 5, 6)]";
    let sums = engine.eval::<Array>(text)?;
    assert_eq!(sums, [0, 1, 3, 6, 10, 15, 21].into_iter().map(Value::from).collect());
    assert_eq!(engine.eval::<i64>("5.sum(6)")?, 11);
    assert_eq!(engine.eval::<String>("describe([1, 'c'])")?, "[Int(1), Char('c')]");
    engine.register_fn("zero", || 7);
    assert_eq!(engine.eval::<i64>("zero()")?, 7);
    Ok(())
}

#[test]
fn functions_that_fail_or_panic_are_caught() -> Result<(), EvalError> {
    let mut engine = Engine::new();
    engine.register_fn("fail", |why: String| -> Result<i64, String> { Err(why) });
    engine.register_fn("panics", |n: i64| if n == 0 { panic!("no") } else { n });
    assert_eq!(engine.eval::<String>("try { fail(\"why\") } catch (e) { e }")?, "why");
    assert_eq!(engine.eval::<String>("try { panics(0) } catch (e) { e }")?, "a function of the host panicked");
    assert_eq!(engine.eval::<String>("try { panics(\"x\") } catch (e) { e }")?, "argument 1 is a text, and i64 is wanted");
    let fault = engine.run("let x = 1;\nfail(\"it\")").unwrap_err();
    assert!(matches!(&fault, EvalError::Runtime { message, line: 2, column: 1, .. } if message == "it"), "{fault:?}");
    Ok(())
}

#[test]
fn variables_live_on() -> Result<(), EvalError> {
    let engine = Engine::new();
    let mut scope = Scope::new()?;
    scope.push("x", 40)?.push("name", "n")?;
    let ast = engine.compile("x += 1; let y = x * 2; y")?;
    assert_eq!(engine.eval_ast_with_scope::<i64>(&mut scope, &ast)?, 82);
    assert_eq!(scope.names()?, ["x", "name", "y"]);
    assert_eq!(engine.eval_ast_with_scope::<i64>(&mut scope, &ast)?, 84);
    assert_eq!(scope.len(), 4);
    scope.set("y", "text")?;
    assert_eq!(scope.get::<String>("y"), Some("text".to_owned()));
    scope.rewind(3)?;
    assert_eq!(scope.get::<i64>("y"), Some(82));
    let fault = engine.run_with_scope(&mut scope, "x = 7; let z = 1; x + nowhere").unwrap_err();
    assert!(matches!(fault, EvalError::Runtime { .. }));
    assert_eq!((scope.get::<i64>("x"), scope.get::<i64>("z")), (Some(7), Some(1)));
    Ok(())
}

#[test]
fn closures_share_their_cells_between_runs() -> Result<(), EvalError> {
    let engine = Engine::new();
    let mut scope = Scope::new()?;
    engine.run_with_scope(&mut scope, "let n = 1; let add = |by| n += by; add.call(4);")?;
    assert_eq!(scope.get::<i64>("n"), Some(5));
    scope.set("n", 10)?;
    assert_eq!(engine.eval_with_scope::<i64>(&mut scope, "n += 1; n")?, 11);
    Ok(())
}

#[test]
fn functions_of_scripts_are_called() -> Result<(), EvalError> {
    let mut engine = Engine::new();
    engine.register_fn("ask", |n: i64| n * 10);
    let ast = engine.compile("let base = 5; fn twice(x) { x * 2 } fn both(a, b) { ask(a) + b } fn fails() { 1 / 0 }")?;
    let mut scope = Scope::new()?;
    assert_eq!(engine.call_fn::<i64>(&mut scope, &ast, "twice", (21,))?, 42);
    assert_eq!(engine.call_fn::<i64>(&mut scope, &ast, "both", (4, 2))?, 42);
    assert_eq!(engine.call_fn::<i64>(&mut scope, &ast, "both", vec![Value::from(1), Value::from(2)])?, 12);
    assert!(scope.is_empty());
    let missing = engine.call_fn::<i64>(&mut scope, &ast, "twice", ()).unwrap_err();
    assert_eq!(missing, EvalError::NoFunction { name: "twice".to_owned(), arguments: 0 });
    assert!(matches!(engine.call_fn::<i64>(&mut scope, &ast, "fails", ()), Err(EvalError::Runtime { .. })));
    Ok(())
}

#[test]
fn budgets_hold() -> Result<(), EvalError> {
    let mut engine = Engine::new();
    let calls = Arc::new(AtomicI64::new(0));
    let counted = Arc::clone(&calls);
    engine.register_fn("tick", move || counted.fetch_add(1, Ordering::Relaxed));
    engine.set_max_operations(10_000).set_max_string_size(100).set_max_array_size(100).set_max_call_levels(10);
    assert!(matches!(engine.run("loop {}"), Err(EvalError::TooManyOperations { line: 1, .. })));
    assert!(matches!(engine.run("loop { tick(); }"), Err(EvalError::TooManyOperations { .. })));
    assert!(calls.load(Ordering::Relaxed) < 10_000);
    assert!(matches!(engine.run("fn f() { f() } f()"), Err(EvalError::Runtime { .. })));
    assert!(matches!(engine.run("let t = \"ab\"; loop { t += t; }"), Err(EvalError::Runtime { .. })));
    assert_eq!(engine.eval::<i64>("1 + 1")?, 2);
    Ok(())
}

#[test]
fn prints_come_a_line_at_a_time() -> Result<(), EvalError> {
    let mut engine = Engine::new();
    let lines = Arc::new(Mutex::new(Vec::new()));
    let kept = Arc::clone(&lines);
    engine.on_print(move |line| kept.lock().unwrap().push(line.to_owned()));
    engine.run("print(1); print(\"two\"); debug(\"two\"); for i in 0..2 { print(i); }")?;
    assert_eq!(*lines.lock().unwrap(), ["1", "two", "\"two\"", "0", "1"]);
    Ok(())
}

#[test]
fn scripts_go_to_other_threads() -> Result<(), EvalError> {
    let engine = Arc::new(Engine::new());
    let ast = engine.compile("n * n")?;
    let threads: Vec<_> = (0..8)
        .map(|n: i64| {
            let (engine, ast) = (Arc::clone(&engine), ast.clone());
            std::thread::spawn(move || {
                let mut scope = Scope::new()?;
                scope.push("n", n)?;
                engine.eval_ast_with_scope::<i64>(&mut scope, &ast)
            })
        })
        .collect();
    for (n, thread) in (0..).zip(threads) {
        assert_eq!(thread.join().unwrap()?, n * n);
    }
    Ok(())
}

#[test]
fn values_of_every_kind_go_in_and_out() -> Result<(), EvalError> {
    let engine = Engine::new();
    let mut scope = Scope::new()?;
    let nested: Array =
        [Value::Unit, Value::from(true), Value::from('c'), Value::Blob(vec![1, 2]), Value::from(0..3), Value::U128(1 << 100)]
            .into_iter()
            .collect();
    let mut fields = rhai_world::Map::new();
    fields.insert("".to_owned(), Value::from(nested.clone()));
    fields.insert("k".to_owned(), Value::FnPtr("f".to_owned(), nested));
    let value = Value::from(fields);
    scope.push("value", value.clone())?;
    assert_eq!(engine.eval_with_scope::<Value>(&mut scope, "value")?, value);
    Ok(())
}

#[test]
fn statements_are_told_before_they_are_done() -> Result<(), EvalError> {
    let mut engine = Engine::new();
    let places = Arc::new(Mutex::new(Vec::new()));
    let kept = Arc::clone(&places);
    engine.on_statement(move |line, column| kept.lock().unwrap().push((line, column)));
    engine.run("let x = 1;\nif x == 1 {\n  x += 1;\n}\nx")?;
    assert_eq!(*places.lock().unwrap(), [(1, 1), (2, 1), (3, 3), (5, 1)]);
    Ok(())
}

#[test]
fn maps_have_a_limit() -> Result<(), EvalError> {
    let mut engine = Engine::new();
    engine.set_max_map_size(3);
    assert_eq!(engine.eval::<i64>("let m = #{a: 1, b: 2}; m.c = 3; m.a = 4; m.len()")?, 3);
    let refused = engine.run("let m = #{a: 1, b: 2, c: 3}; m.d = 4;").unwrap_err();
    assert!(matches!(refused, EvalError::Runtime { .. }));
    Ok(())
}
