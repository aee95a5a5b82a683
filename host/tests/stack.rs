//! The deepest possible inputs, on a thread with the stack that a call needs: values, chains of
//! cells and lines of a million levels, and scripts.
mod common;

use common::{levels, on_stack};
use rhai_world::{Answer, Error, Limits, Map, Script, ScriptError, Value, World, STACK};

fn world() -> World {
    World::new(Limits::default()).unwrap()
}

/// Makes each call that walks a value, on the one at position 0, which is dropped then.
fn walk(w: &mut World) -> Result<(), Error> {
    w.copy(0)?;
    assert!(!w.show(0)?.is_empty() && !w.debug(1)?.is_empty() && w.hash(0)?.len() > levels());
    assert_eq!((w.is_locked(0), w.is_hashable(1), w.is_read_only(0)), (Ok(false), Ok(true), Ok(false)));
    w.make_read_only(0)?;
    w.scan_tags(1, 3)?;
    w.scan_zero(1)?;
    w.share(1)?;
    w.flatten_clone(1)?;
    let x = w.name("x")?;
    w.push(x, 2)?;
    w.get(x)?;
    w.flatten(1)?;
    w.mark(rhai_world::Place::Hand(0)).unwrap_err();
    w.copy_scope()?;
    w.keep_visible()?;
    w.entries()?;
    assert!(!w.show_scope()?.is_empty() && w.hash_scope()?.len() > levels());
    w.scan_no_share(1)?;
    w.collect()?;
    w.clear()?;
    while w.hand_len() > 0 {
        w.drop()?;
    }
    w.forget_name(x)?;
    w.collect()
}

#[test]
fn arrays() {
    on_stack(STACK, || {
        let mut w = world();
        w.put_int(7).unwrap();
        for _ in 0..levels() {
            w.make_array(1).unwrap();
        }
        walk(&mut w).unwrap();
    });
}

#[test]
fn maps_and_functions() {
    on_stack(STACK, || {
        let mut w = world();
        let k = w.name("k").unwrap();
        w.put_int(7).unwrap();
        for _ in 0..levels() / 2 {
            w.make_map(&[k]).unwrap();
            w.make_fn(k, 1).unwrap();
        }
        walk(&mut w).unwrap();
    });
}

/// A cell in a cell and so on, each in an array.
#[test]
fn cells() {
    on_stack(STACK, || {
        let mut w = world();
        w.put_int(7).unwrap();
        for _ in 0..levels() {
            w.share(0).unwrap();
            w.make_array(1).unwrap();
        }
        walk(&mut w).unwrap();
    });
}

#[test]
fn values_of_rust() {
    on_stack(STACK, || {
        let mut value = Value::Int(7);
        for i in 0..levels() {
            value = match i % 3 {
                0 => Value::Array(vec![Value::Unit, value].into()),
                1 => Value::Map([("k".to_owned(), value)].into_iter().collect::<Map>()),
                _ => Value::FnPtr("f".into(), vec![value].into()),
            };
        }
        let mut w = world();
        w.put(&value).unwrap();
        assert!(w.value(0).unwrap().unwrap() == value);
        walk(&mut w).unwrap();
    });
}

#[test]
fn lines() {
    on_stack(STACK, || {
        let mut w = world();
        let lines = format!("int 7\n{}show 0\n", "array 1\n".repeat(levels()));
        assert!(w.run_lines(lines.as_bytes()).unwrap().len() > levels());
        w.line("int 7").unwrap();
        for _ in 0..levels() {
            w.line("array 1").unwrap();
        }
        assert!(matches!(w.line("show 0"), Ok(Answer::Text(text)) if text.len() > levels()));
        walk(&mut w).unwrap();
    });
}

fn run(text: &str) -> Result<String, ScriptError> {
    Script::run(text, 10_000_000, Limits::default())
}

/// Texts that nest too deep, texts that nest as deep as allowed, values that grow deep, and nested
/// calls.
#[test]
fn scripts() {
    on_stack(Script::STACK, || {
        let deep = levels();
        for text in ["[", "(", "{", "-", "f(", "#{k: ", "if true {", "let f = |x| "].map(|opens| opens.repeat(deep)) {
            assert!(matches!(run(&text), Err(ScriptError::Syntax { .. })));
        }
        let nested = |opens: &str, closes: &str| format!("print({}1{})", opens.repeat(50), closes.repeat(50));
        assert_eq!(run(&nested("(", ")")).as_deref(), Ok("1\n"));
        assert_eq!(run(&format!("fn f(x) {{ x }} {}", nested("f(", ")"))).as_deref(), Ok("1\n"));
        assert!(run(&nested("[", "]")).is_ok_and(|printed| printed.len() == 102));
        let calls = "fn f(n) { if n == 0 { 0 } else { [f(n - 1)].len() + { let x = f(0); x } } } print(f(490))";
        assert_eq!(run(calls).as_deref(), Ok("1\n"));
        assert_eq!(run("let a = 7; for i in 0..2000 { a = [a]; } let b = a; print(2)").as_deref(), Ok("2\n"));
        assert_eq!(run(&format!("print({}0)", "1 + ".repeat(2000))).as_deref(), Ok("2000\n"));
    });
}
