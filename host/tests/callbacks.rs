//! Functions of scripts that the program holds, and host functions that call them or change their
//! receiver.
use rhai_world::{Array, Call, Engine, EvalError, Function, Scope, Value};
use std::sync::{Arc, Mutex};

/// An engine with functions that call back.
fn engine() -> Engine {
    let mut engine = Engine::new();
    engine
        .register_fn("each", |call: &mut Call, items: Vec<i64>, f: Function| -> Result<(), EvalError> {
            for item in items {
                call.call::<Value>(&f, (item,))?;
            }
            Ok(())
        })
        .register_fn("apply", |call: &mut Call, f: Function, x: Value| call.call::<Value>(&f, (x,)))
        .register_fn("apply_twice", |call: &mut Call, f: Function, x: i64| -> Result<i64, EvalError> {
            let once: i64 = call.call(&f, (x,))?;
            f.call_within_context(call, (once,))
        })
        .register_fn("by_name", |call: &mut Call, name: String, x: i64| call.call_fn::<i64>(&name, (x,)))
        .register_fn("same", |f: Function| f);
    engine
}

#[test]
fn functions_of_the_program_call_back() -> Result<(), EvalError> {
    let engine = engine();
    assert_eq!(engine.eval::<i64>("let sum = 0; each([1, 2, 3], |n| sum += n); sum")?, 6);
    assert_eq!(engine.eval::<i64>("fn double(x) { x * 2 } apply_twice(Fn(\"double\"), 5)")?, 20);
    assert_eq!(engine.eval::<i64>("let k = 3; let r = 100 + apply_twice(|x| x * k, 2) + k; r")?, 121);
    assert_eq!(engine.eval::<i64>("let f = |x| x + 1; same(f).call(4)")?, 5);
    assert_eq!(engine.eval::<i64>("fn double(x) { x * 2 } by_name(\"double\", 5)")?, 10);
    assert!(engine
        .eval::<String>("try { by_name(\"nowhere\", 5) } catch (e) { e }")?
        .contains("no function nowhere of 1 arguments"));
    assert_eq!(engine.eval::<i64>("let n = 1; let f = same(|x| { n += x; n }); f.call(4); n += 1; f.call(0)")?, 6);
    Ok(())
}

#[test]
fn they_nest() -> Result<(), EvalError> {
    let mut engine = engine();
    let text = "fn down(n) { if n == 0 { 0 } else { 1 + apply(Fn(\"down\"), n - 1) } } down(20)";
    assert_eq!(engine.eval::<i64>(text)?, 20);
    let deep = engine.run(&text.replace("20", "200")).unwrap_err();
    assert!(
        matches!(&deep, EvalError::Runtime { message, line: 1, .. } if message == "too many calls within each other"),
        "{deep:?}"
    );
    engine.set_max_call_levels(10);
    let deep = engine.run(text).unwrap_err();
    assert!(
        matches!(&deep, EvalError::Runtime { message, line: 1, .. } if message == "too many calls within each other"),
        "{deep:?}"
    );
    Ok(())
}

#[test]
fn what_goes_wrong_within_is_thrown_where_the_program_is_called() -> Result<(), EvalError> {
    let engine = engine();
    assert_eq!(engine.eval::<i64>("try { each([1], |n| { throw n + 41; }); 0 } catch (e) { e }")?, 42);
    assert_eq!(engine.eval::<i64>("try { each([1], |n| n.nowhere()); 0 } catch (e) { e.line }")?, 1);
    assert_eq!(engine.eval::<i64>("let sum = 0; each([1, 2], |n| { try { throw n } catch (e) { sum += e; } }); sum")?, 3);
    let text = "try {\n  apply(|x| { try { apply(|y| { throw [y]; }, x) } catch (e) { throw e[0] + 1; } }, 1)\n} catch (e) { e }";
    assert_eq!(engine.eval::<i64>(text)?, 2);
    let fault = engine.run("let x = 1;\neach([x], |n| { throw n; })").unwrap_err();
    assert!(matches!(fault, EvalError::Runtime { line: 2, .. }), "{fault:?}");
    let mut engine = engine;
    engine.register_fn("or", |call: &mut Call, f: Function, other: i64| call.call::<i64>(&f, ()).unwrap_or(other));
    assert_eq!(engine.eval::<i64>("or(|| 1 / 0, 7) + or(|| 1, 7) + or(|| \"text\", 7) + or(|x| x, 7)")?, 22);
    Ok(())
}

#[test]
fn a_script_exits_within() -> Result<(), EvalError> {
    let mut engine = engine();
    engine.register_fn("or", |call: &mut Call, f: Function, other: i64| call.call::<i64>(&f, ()).unwrap_or(other));
    assert_eq!(engine.eval::<i64>("let n = 1; each([1, 2, 3], |x| { n += x; if x == 2 { exit(n); } }); 0")?, 4);
    assert_eq!(engine.eval::<i64>("try { or(|| exit(5), 7) } catch { 8 }")?, 5);
    assert_eq!(engine.eval::<i64>("1 + apply(|x| 1 + apply(|y| exit(y * 2), x), 3)")?, 6);
    engine.run("or(|| exit(), 7); 1 / 0")?;
    let mut scope = Scope::of([("kept", 7)])?;
    let text = "fn stop(n) { or(|| exit(n), 0) } let fresh = 1; kept += 1; stop(kept); let missing = 2;";
    assert_eq!(engine.eval_with_scope::<i64>(&mut scope, text)?, 8);
    assert_eq!((scope.get::<i64>("kept"), scope.get::<i64>("fresh"), scope.len()), (Some(8), Some(1), 2));
    assert_eq!(engine.eval_with_scope::<i64>(&mut scope, "kept + 1")?, 9);
    Ok(())
}

#[test]
fn limits_hold_within() -> Result<(), EvalError> {
    let mut engine = engine();
    engine.register_fn("swallow", |call: &mut Call, f: Function| call.call::<Value>(&f, ()).is_ok());
    engine.set_max_operations(10_000);
    let run = engine.run("try { swallow(|| { loop {} }); } catch { }");
    assert!(matches!(run, Err(EvalError::TooManyOperations { line: 1, .. })), "{run:?}");
    let interrupt = engine.interrupt();
    engine.register_fn("pull", move || interrupt.pull());
    let run = engine.run("swallow(|| { pull(); loop {} }); loop {}");
    assert!(matches!(run, Err(EvalError::Interrupted { .. })), "{run:?}");
    engine.set_max_operations(0).set_max_memory(1_000_000);
    let mut scope = Scope::of([("kept", 7)])?;
    let run = engine.run_with_scope(&mut scope, "swallow(|| { let a = [1]; loop { a += a; } });");
    assert!(matches!(run, Err(EvalError::OutOfMemory { .. })), "{run:?}");
    assert_eq!(scope.get::<i64>("kept"), Some(7));
    Ok(())
}

#[test]
fn lines_and_statements_within_are_seen() -> Result<(), EvalError> {
    let seen = Arc::new(Mutex::new(Vec::new()));
    let (lines, statements) = (Arc::clone(&seen), Arc::clone(&seen));
    let mut engine = engine();
    engine.on_print(move |line| lines.lock().unwrap().push(line.to_owned()));
    engine.on_statement(move |line, _| statements.lock().unwrap().push(format!("at {line}")));
    engine.run("print(1);\neach([2], |n| {\nprint(n);\nprint(3);\n});\nprint(4);")?;
    assert_eq!(*seen.lock().unwrap(), ["at 1", "1", "at 2", "at 3", "2", "at 4", "3", "at 6", "4"]);
    Ok(())
}

#[test]
fn a_panic_of_what_prints_within_passes() {
    let mut engine = engine();
    engine.on_print(|line| panic!("{line}"));
    let run = std::panic::catch_unwind(std::panic::AssertUnwindSafe(|| engine.run("try { each([1], |n| print(n)); } catch { }")));
    assert_eq!(run.unwrap_err().downcast_ref::<String>().map(String::as_str), Some("1"));
}

#[test]
fn functions_are_kept() -> Result<(), EvalError> {
    let engine = Engine::new();
    let ast = engine.compile("let total = 0; let log = []; let add = |n| { total += n; log.push(n); total }; add")?;
    let mut scope = Scope::new()?;
    let add: Function = engine.eval_ast_with_scope(&mut scope, &ast)?;
    assert_eq!(add.call::<i64>(&engine, &mut scope, &ast, (2,))?, 2);
    assert_eq!(scope.get::<i64>("total"), Some(2));
    scope.set("total", 10)?;
    assert_eq!(add.call::<i64>(&engine, &mut scope, &ast, (3,))?, 13);
    let again = scope.try_get::<Function>("add")?.expect("it is there");
    assert_ne!(again, add);
    assert_eq!(again.call::<i64>(&engine, &mut scope, &ast, (1,))?, 14);
    assert_eq!(scope.get::<Vec<i64>>("log"), Some(vec![2, 3, 1]));
    let wrong = add.call::<i64>(&engine, &mut scope, &ast, ()).unwrap_err();
    assert!(matches!(&wrong, EvalError::NoFunction { arguments: 0, .. }), "{wrong:?}");
    assert_eq!(scope.names()?, ["total", "log", "add"]);
    Ok(())
}

#[test]
fn what_they_captured_outlives_collections() -> Result<(), EvalError> {
    let kept = Arc::new(Mutex::new(Vec::<Function>::new()));
    let keeps = Arc::clone(&kept);
    let mut engine = Engine::new();
    engine.register_fn("keep", move |f: Function| keeps.lock().unwrap().push(f));
    engine.register_fn("kept", {
        let kept = Arc::clone(&kept);
        move |call: &mut Call, number: i64| -> Result<Value, EvalError> {
            let function = kept.lock().unwrap()[number as usize].clone();
            call.call(&function, ())
        }
    });
    // each of these makes a cell, so that there are many collections
    let text = "fn counter(from) { let n = from; || { n += 1; n } }
        keep(counter(10)); keep(counter(20));
        for i in 0..5000 { let x = i; let f = || x; if i % 1000 == 0 { keep(f); } }
        [kept(0), kept(0), kept(1), kept(2), kept(6), kept(0)]";
    let ast = engine.compile(text)?;
    let mut scope = Scope::new()?;
    let found = engine.eval_ast_with_scope::<Vec<i64>>(&mut scope, &ast)?;
    assert_eq!(found, [11, 12, 21, 0, 4000, 13]);
    let first = kept.lock().unwrap()[0].clone();
    assert_eq!(first.call::<i64>(&engine, &mut scope, &ast, ())?, 14);
    Ok(())
}

#[test]
fn dropping_one_frees_what_it_captured() -> Result<(), EvalError> {
    let engine = Engine::new();
    let ast = engine.compile("fn holder(n) { let items = []; for i in 0..n { items.push(i); } || items.len() } holder(100)")?;
    let mut scope = Scope::new()?;
    let first: Function = engine.eval_ast_with_scope(&mut scope, &ast)?;
    // (a collection runs when there are more than a thousand cells, and twice as many as were left)
    for _ in 0..10_000 {
        let next: Function = engine.eval_ast_with_scope(&mut scope, &ast)?;
        assert_eq!(next.call::<i64>(&engine, &mut scope, &ast, ())?, 100);
    }
    assert!(scope.memory().held < 10_000_000, "{}", scope.memory().held);
    assert_eq!(first.call::<i64>(&engine, &mut scope, &ast, ())?, 100);
    Ok(())
}

#[test]
fn another_scope_refuses_them() -> Result<(), EvalError> {
    let mut engine = engine();
    let ast = engine.compile("|x| x + 1")?;
    let mut scope = Scope::new()?;
    let f: Function = engine.eval_ast_with_scope(&mut scope, &ast)?;
    let mut other = Scope::new()?;
    assert_eq!(f.call::<i64>(&engine, &mut other, &ast, (1,)), Err(EvalError::OtherScope));
    let g = f.clone();
    engine.register_fn("theirs", move |call: &mut Call| call.call::<i64>(&g, (1,)));
    assert_eq!(engine.eval::<String>("try { theirs() } catch (e) { e }")?, "a function of another scope");
    let g = f.clone();
    engine.register_fn("give_theirs", move || g.clone());
    assert_eq!(engine.run("give_theirs()"), Err(EvalError::OtherScope));
    drop(scope);
    assert_eq!(f.call::<i64>(&engine, &mut other, &ast, (1,)), Err(EvalError::OtherScope));
    let kind = engine.eval::<Function>("7").unwrap_err();
    assert_eq!(kind.to_string(), "the value is an int, and Function was wanted");
    assert_eq!(engine.eval::<String>("try { apply(7, 1) } catch (e) { e }")?, "argument 1 is an int, and Function is wanted");
    Ok(())
}

#[test]
fn another_script_has_not_their_function() -> Result<(), EvalError> {
    let engine = Engine::new();
    let mut scope = Scope::new()?;
    let f: Function = engine.eval_with_scope(&mut scope, "let n = 1; || n")?;
    let other = engine.compile("let m = 2; || m")?;
    let missing = f.call::<i64>(&engine, &mut scope, &other, ()).unwrap_err();
    assert!(matches!(missing, EvalError::NoFunction { arguments: 0, .. }), "{missing:?}");
    assert_eq!(scope.get::<i64>("n"), Some(1));
    Ok(())
}

#[test]
fn first_arguments_are_changed() -> Result<(), EvalError> {
    let mut engine = engine();
    engine
        .register_fn("grow", |list: &mut Vec<i64>, by: i64| list.push(by))
        .register_fn("bump", |n: &mut i64| {
            *n += 1;
            *n * 10
        })
        .register_fn("append_made", |call: &mut Call, list: &mut Array, f: Function| -> Result<(), EvalError> {
            list.push(call.call::<Value>(&f, ())?);
            Ok(())
        })
        .register_fn("spoil", |list: &mut Vec<i64>| {
            list.clear();
            Err::<(), _>("spoiled")
        });
    assert_eq!(engine.eval::<Vec<i64>>("let l = [1]; l.grow(2); grow(l, 3); l")?, [1, 2, 3]);
    assert_eq!(engine.eval::<Vec<i64>>("let m = #{a: [[1], [2]]}; m.a[1].grow(5); m[\"a\"][1].grow(6); m.a[1]")?, [2, 5, 6]);
    assert_eq!(engine.eval::<Vec<i64>>("let n = 4; let m = n.bump(); [n, m, bump(n), n, bump(7)]")?, [5, 50, 60, 6, 80]);
    assert_eq!(engine.eval::<Vec<i64>>("let l = [1]; let f = || l.len(); l.grow(2); [f.call(), l.len()]")?, [2, 2]);
    assert_eq!(engine.eval::<i64>("let l = [1]; let f = || l.len(); grow(l, 2); l.len()")?, 1);
    assert_eq!(engine.eval::<i64>("const L = [1]; grow(L, 2); L.len()")?, 1);
    let constant = engine.run("const L = [1]; L.grow(2);").unwrap_err();
    assert!(matches!(constant, EvalError::Runtime { line: 1, column: 16, .. }), "{constant:?}");
    assert_eq!(engine.eval::<i64>("let l = []; l.append_made(|| 7); l.append_made(|| 8); l[0] * 10 + l[1]")?, 78);
    assert_eq!(engine.eval::<i64>("[1, 2].grow(3); 7")?, 7);
    assert_eq!(engine.eval::<Vec<i64>>("let l = [1]; try { l.spoil() } catch { } l")?, [1]);
    assert_eq!(engine.eval::<i64>("fn f(l) { l.grow(1); l.len() } let l = [1, 2]; f(l) * 10 + l.len()")?, 32);
    Ok(())
}

#[test]
fn a_run_by_pieces_goes_through_calls_within() -> Result<(), EvalError> {
    let engine = engine();
    let ast = engine.compile("let sum = 0; each([1, 2, 3], |n| sum += n); for i in 0..100 { sum += apply(|x| x, i); } sum")?;
    for operations in [1, 2, 3, 7, 100] {
        let mut scope = Scope::new()?;
        let mut run = engine.start(&mut scope, &ast)?;
        let value = loop {
            match run.go(operations)? {
                rhai_world::Progress::Done(value) => break value,
                rhai_world::Progress::Paused | rhai_world::Progress::Statement { .. } => {}
            }
        };
        assert_eq!(value, Value::Int(4_956));
    }
    Ok(())
}

#[test]
fn a_run_that_is_dropped_gives_its_variables_back() -> Result<(), EvalError> {
    let engine = engine();
    let ast = engine.compile("let a = 1; each([1, 2, 3], |n| { a += n; }); let b = 2; loop {}")?;
    let mut scope = Scope::new()?;
    let mut run = engine.start(&mut scope, &ast)?;
    run.go(200)?;
    drop(run);
    assert_eq!((scope.get::<i64>("a"), scope.get::<i64>("b")), (Some(7), Some(2)));
    Ok(())
}

#[test]
fn a_value_that_contains_itself_is_an_error_of_its_own() -> Result<(), EvalError> {
    let engine = engine();
    let mut scope = Scope::new()?;
    let ast = engine.compile("let a = [1]; let f = || a.len(); a.push(f); let n = f.call(); f")?;
    let f: Function = engine.eval_ast_with_scope(&mut scope, &ast)?;
    assert_eq!((f.call::<i64>(&engine, &mut scope, &ast, ()), scope.get::<i64>("n")), (Ok(2), Some(2)));
    assert_eq!(scope.value("a"), Err(EvalError::ContainsItself));
    assert_eq!(scope.try_get::<Array>("a"), Err(EvalError::ContainsItself));
    assert_eq!(scope.iter().filter(|variable| *variable == Err(EvalError::ContainsItself)).count(), 2);
    assert_eq!(engine.eval_with_scope::<Value>(&mut scope, "a"), Err(EvalError::ContainsItself));
    let text = "try { each(a, |x| x) } catch (e) { e }";
    assert_eq!(engine.eval_with_scope::<String>(&mut scope, text)?, "argument 1 contains itself");
    let fault = engine.run_with_scope(&mut scope, "let x = 1;\napply(|x| x, a)").unwrap_err();
    assert!(
        matches!(&fault, EvalError::Runtime { message, line: 2, .. } if message == "argument 2 contains itself"),
        "{fault:?}"
    );
    // (the result of the call contains itself, and the program may go on without it)
    let text = "let a = [1]; a.push(|| a.len()); try { apply(|x| a, 1) } catch (e) { e }";
    assert_eq!(engine.eval::<String>(text)?, EvalError::ContainsItself.to_string());
    let wrong = f.call::<i64>(&engine, &mut scope, &ast, (1, 2)).unwrap_err();
    assert!(matches!(&wrong, EvalError::NoFunction { name, arguments: 2 } if name.starts_with("anon$")), "{wrong:?}");
    Ok(())
}

#[test]
fn a_name_that_no_script_can_write_is_never_called() -> Result<(), EvalError> {
    for name in ["", " ", "a b", "\n", "x 0\ny", "x 0 mut\n", "1x", "\u{e9}", "+", "if", "x\r", "a\tb"] {
        let mut engine = Engine::new();
        engine.register_fn("before", || 1).register_fn(name, || 2).register_fn(name, |_n: i64| 3).register_fn("after", || 4);
        assert_eq!(engine.eval::<i64>("before() * 10 + after()")?, 14, "{name:?}");
        let missing = engine.run("y()").unwrap_err();
        assert!(matches!(missing, EvalError::Runtime { line: 1, column: 1, .. }), "{name:?}: {missing:?}");
    }
    Ok(())
}
