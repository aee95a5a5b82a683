//! Functions of the program: their forms, the types of their parameters, their names, and their panics.
use rhai_world::{Array, Call, Engine, EvalError, Function, Map, Scope, Value};
use std::ops::{Range, RangeInclusive};
use std::sync::Arc;

#[test]
fn each_type_of_a_value_goes_in_and_out() -> Result<(), EvalError> {
    let mut engine = Engine::new();
    engine
        .register_fn("not", |it: bool| !it)
        .register_fn("upper", |letter: char| letter.to_ascii_uppercase())
        .register_fn("twice", |text: String| text.repeat(2))
        .register_fn("turned", |items: Array| items.into_iter().rev().collect::<Array>())
        .register_fn("renamed", |fields: Map| fields.into_iter().map(|(key, value)| (key + "!", value)).collect::<Map>())
        .register_fn("last", |bytes: Vec<u8>| bytes.last().copied())
        .register_fn("blob_of", |byte: u8| Value::Blob(vec![byte; 2]))
        .register_fn("width", |range: Range<i64>| range.end - range.start)
        .register_fn("wider", |range: RangeInclusive<i64>| *range.start()..=range.end() + 1)
        .register_fn("nothing", |(): ()| ())
        .register_fn("called", |call: &mut Call, f: Function| call.call::<i64>(&f, ()))
        .register_fn("same_function", |f: Function| f)
        .register_fn("same", |value: Value| value);
    assert_eq!(engine.eval::<[bool; 2]>("[not(true), not(1 > 2)]")?, [false, true]);
    assert_eq!(engine.eval::<char>("upper('a')")?, 'A');
    assert_eq!(engine.eval::<String>("twice(\"ab\")")?, "abab");
    assert_eq!(engine.eval::<Vec<i64>>("turned([1, 2, 3])")?, [3, 2, 1]);
    assert_eq!(engine.eval::<i64>("renamed(#{a: 7})[\"a!\"]")?, 7);
    assert_eq!(engine.eval::<Value>("last(blob(3, 9))")?, Value::Int(9));
    assert_eq!(engine.eval::<Value>("blob_of(8)")?, Value::Blob(vec![8, 8]));
    assert_eq!(engine.eval::<i64>("width(3..10)")?, 7);
    assert_eq!(engine.eval::<RangeInclusive<i64>>("wider(0..=8)")?, 0..=9);
    engine.eval::<()>("nothing(())")?;
    assert_eq!(engine.eval::<i64>("let n = 40; called(|| n + 2)")?, 42);
    assert_eq!(engine.eval::<i64>("fn one() { 1 } same_function(Fn(\"one\")).call()")?, 1);
    assert_eq!(engine.eval::<Value>("same(#{a: [(), 'c']}).a[1]")?, Value::Char('c'));
    assert_eq!(engine.eval::<String>("try { width(1..=2) } catch (e) { e.sub_string(0, 15) }")?, "argument 1 is a");
    Ok(())
}

#[test]
fn texts_are_lent() -> Result<(), EvalError> {
    fn longer(left: &str, right: &str) -> bool {
        left.len() > right.len()
    }
    let mut engine = Engine::new();
    engine
        .register_fn("letters", |text: &str| text.chars().count() as i64)
        .register_fn("between", |left: &str, n: i64, right: &str| format!("{left}{n}{right}"))
        .register_fn("parsed", |text: &str| text.parse::<i64>())
        .register_fn("longer", longer)
        .register_fn("add", |list: &mut Vec<String>, item: &str| list.push(item.to_owned()))
        .register_fn("at", |call: &mut Call, name: &str| format!("{name} in line {}", call.line_column().map_or(0, |at| at.0)))
        .register_fn("join", |_: &mut Call, list: &mut Vec<String>, by: &str| list.join(by))
        .register_fn("six", |a: &str, b: &str, c: &str, d: &str, e: &str, f: &str| [a, b, c, d, e, f].concat());
    assert_eq!(engine.eval::<i64>("letters(\"größe\")")?, 5);
    assert_eq!(engine.eval::<String>("between(\"a\", 7, \"b\")")?, "a7b");
    assert_eq!(engine.eval::<i64>("parsed(\"42\")")?, 42);
    assert!(engine.eval::<String>("try { parsed(\"x\") } catch (e) { e }")?.contains("invalid digit"));
    assert_eq!(engine.eval::<[bool; 2]>("let a = \"ab\"; [longer(a, \"c\"), longer(a, a)]")?, [true, false]);
    assert_eq!(engine.eval::<Vec<String>>("let list = []; list.add(\"x\"); list")?, ["x"]);
    assert_eq!(engine.eval::<String>("\n\nat(\"here\")")?, "here in line 3");
    assert_eq!(engine.eval::<String>("[\"x\", \"y\"].join(\"-\")")?, "x-y");
    assert_eq!(engine.eval::<String>("six(\"a\", \"b\", \"c\", \"d\", \"e\", \"f\")")?, "abcdef");
    assert_eq!(engine.eval::<String>("try { letters('c') } catch (e) { e.sub_string(0, 15) }")?, "argument 1 is a");
    Ok(())
}

#[test]
fn each_form_takes_up_to_six_parameters() -> Result<(), EvalError> {
    let mut engine = Engine::new();
    engine
        .register_fn("plain", |a: i64, b: i64, c: i64, d: i64, e: i64, f: i64| a + b + c + d + e + f)
        .register_fn(
            "tried",
            |a: i64, b: i64, c: i64, d: i64, e: i64, f: i64| if f > 0 { Ok(a + b + c + d + e + f) } else { Err("no") },
        )
        .register_fn("calls", |_call: &mut Call| 7)
        .register_fn("calls", |call: &mut Call, f: Function, b: i64, c: i64, d: i64, e: i64, g: i64| {
            call.call::<i64>(&f, (b, c, d, e, g))
        })
        .register_fn("changes", |n: &mut i64| *n += 1)
        .register_fn("changes", |n: &mut i64, b: i64, c: i64, d: i64, e: i64, f: i64| *n += b + c + d + e + f)
        .register_fn(
            "both",
            |call: &mut Call, n: &mut i64, f: Function, c: i64, d: i64, e: i64, g: i64| -> Result<(), EvalError> {
                *n += call.call::<i64>(&f, (c, d, e, g))?;
                Ok(())
            },
        );
    assert_eq!(engine.eval::<i64>("plain(1, 2, 3, 4, 5, 6)")?, 21);
    assert_eq!(engine.eval::<i64>("tried(1, 2, 3, 4, 5, 6)")?, 21);
    assert_eq!(engine.eval::<String>("try { tried(1, 2, 3, 4, 5, 0) } catch (e) { e }")?, "no");
    assert_eq!(engine.eval::<i64>("calls()")?, 7);
    assert_eq!(engine.eval::<i64>("calls(|a, b, c, d, e| a + b + c + d + e, 1, 2, 3, 4, 5)")?, 15);
    assert_eq!(engine.eval::<i64>("let n = 1; n.changes(); n.changes(2, 3, 4, 5, 6); n")?, 22);
    assert_eq!(engine.eval::<i64>("let n = 1; n.both(|a, b, c, d| a * b * c * d, 1, 2, 3, 4); n")?, 25);
    Ok(())
}

#[test]
fn names_are_the_scripts_then_the_hosts_then_the_packages() -> Result<(), EvalError> {
    let mut engine = Engine::new();
    assert_eq!(engine.eval::<i64>("len([1, 2])")?, 2);
    engine.register_fn("len", |_items: Array, _more: i64| 60);
    assert_eq!(engine.eval::<i64>("len([1, 2]) + len([1, 2], 0)")?, 62);
    engine.register_fn("len", |_items: Array| 70);
    assert_eq!(engine.eval::<i64>("len([1, 2])")?, 70);
    assert_eq!(engine.eval::<i64>("[1, 2].len()")?, 70);
    assert_eq!(engine.eval::<i64>("fn len(items) { 80 } len([1, 2])")?, 80);
    let missing = engine.run("let x = 1;\n  missing(x)").unwrap_err();
    assert!(matches!(missing, EvalError::Runtime { line: 2, column: 3, .. }), "{missing:?}");
    let missing = engine.run("len([1], 2, 3)").unwrap_err();
    assert!(matches!(missing, EvalError::Runtime { line: 1, column: 1, .. }), "{missing:?}");
    Ok(())
}

#[test]
fn a_panic_is_thrown_where_the_script_calls_also_within_calls_back() -> Result<(), EvalError> {
    let mut engine = Engine::new();
    engine
        .register_fn("panics", |why: String| -> i64 { panic!("{why}") })
        .register_fn("apply", |call: &mut Call, f: Function, n: i64| call.call::<i64>(&f, (n,)))
        .register_fn("panics_after", |call: &mut Call, f: Function| -> i64 {
            let n = call.call::<i64>(&f, ());
            panic!("as it should after {n:?}")
        });
    let mut scope = Scope::of([("n", 0)])?;
    let text = "try { apply(|x| { n += x; panics(\"as it should\") }, 1) } catch (e) { e }";
    assert_eq!(engine.eval_with_scope::<String>(&mut scope, text)?, "a function of the host panicked");
    let text = "let why = try_it.call(); n += apply(|x| x + 1, 9); why";
    let whole = format!("let try_it = || {{ try {{ panics_after(|| n += 1) }} catch (e) {{ e }} }}; {text}");
    assert_eq!(engine.eval_with_scope::<String>(&mut scope, &whole)?, "a function of the host panicked");
    assert_eq!(scope.get::<i64>("n"), Some(12));
    let fault = engine.run_with_scope(&mut scope, "n = 3;\n panics_after(|| 1 / 0)").unwrap_err();
    assert!(matches!(&fault, EvalError::Runtime { line: 2, column: 2, .. }), "{fault:?}");
    assert_eq!(engine.eval_with_scope::<i64>(&mut scope, "apply(|x| x + n, 4)")?, 7);
    Ok(())
}

#[test]
fn a_call_tells_its_place_and_operations() -> Result<(), EvalError> {
    let mut engine = Engine::new();
    engine
        .register_fn("place", |call: &mut Call| -> Result<Vec<u32>, String> {
            let (line, column) = call.line_column().ok_or("it has no place")?;
            Ok(vec![line, column])
        })
        .register_fn("cost", |call: &mut Call, f: Function| -> Result<u64, EvalError> {
            let before = call.operations();
            call.call::<Value>(&f, ())?;
            Ok(call.operations() - before)
        })
        .register_fn("inner", |call: &mut Call| call.engine().eval::<i64>("6 * 7"));
    assert_eq!(engine.eval::<Vec<u32>>("let x = 1;\n  place()")?, [2, 3]);
    assert_eq!(engine.eval::<Vec<u32>>("fn f() {\n place() }\nf()")?, [2, 2]);
    // (each round takes at least one operation, and the limit counts those of the called function)
    assert!(engine.eval::<i64>("cost(|| { for i in 0..100 { } })")? >= 100);
    assert_eq!(engine.eval::<i64>("inner()")?, 42);
    let mut scope = Scope::new()?;
    let ast = engine.compile("cost(|| { for i in 0..1_000 { } })")?;
    let mut run = engine.start(&mut scope, &ast)?;
    run.go(u64::MAX)?;
    assert!(run.operations() >= 1_000, "{}", run.operations());
    Ok(())
}

#[test]
fn a_hundred_threads_share_an_engine_and_a_script() -> Result<(), EvalError> {
    let mut engine = Engine::new();
    engine
        .register_fn("apply", |call: &mut Call, f: Function, n: i64| call.call::<i64>(&f, (n,)))
        .register_fn("text_of", |n: i64| format!("number {n}"));
    let ast =
        engine.compile("let base = n; let add = |x| { base += x; base }; apply(add, 1) + apply(add, 2) + text_of(n).len()")?;
    let engine = Arc::new(engine);
    let threads: Vec<_> = (0..100)
        .map(|n: i64| {
            let (engine, ast) = (Arc::clone(&engine), ast.clone());
            std::thread::spawn(move || {
                let mut scope = Scope::of([("n", n)])?;
                engine.eval_ast_with_scope::<i64>(&mut scope, &ast)
            })
        })
        .collect();
    for (n, thread) in (0..).zip(threads) {
        // (n + 1, n + 3, and seven letters before one or two digits)
        let expected = n + 1 + n + 3 + if n < 10 { 8 } else { 9 };
        assert_eq!(thread.join().expect("no panic"), Ok(expected));
    }
    Ok(())
}

#[test]
fn functions_dropped_on_another_thread_free_what_they_captured() -> Result<(), EvalError> {
    let engine = Engine::new();
    let ast = engine.compile("fn holder(n) { let items = []; for i in 0..n { items.push(i); } || items.len() } holder(100)")?;
    let mut scope = Scope::new()?;
    for _ in 0..100 {
        let some: Vec<Function> = (0..100).map(|_| engine.eval_ast_with_scope(&mut scope, &ast)).collect::<Result<_, _>>()?;
        std::thread::spawn(move || drop(some)).join().expect("no panic");
    }
    // (10,000 functions with 100 ints each would hold more)
    assert!(scope.memory().held < 10_000_000, "{}", scope.memory().held);
    Ok(())
}
