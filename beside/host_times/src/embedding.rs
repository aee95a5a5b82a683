//! What `beside/embedding/lua.c` does by Lua's C API, by this crate's engine.
use crate::clock::now;
use rhai_world::{Array, Engine, EvalError, Scope, Value};

const ITEMS: i64 = 1000;

fn wants(found: i64, wanted: i64) {
    assert_eq!(found, wanted, "an answer is wrong");
}

/// A loop of the script that calls the host, minus the same loop without the call.
fn to_the_host(engine: &Engine, rounds: i64) -> Result<f64, EvalError> {
    let mut taken = [0.0; 2];
    for (taken, call) in taken.iter_mut().zip(["x + 1", "next_of(x)"]) {
        let ast = engine.compile(&format!("let x = 0; for i in 0..{rounds} {{ x = {call}; }} x"))?;
        let began = now();
        let last: i64 = engine.eval_ast(&ast)?;
        *taken = (now() - began) as f64;
        wants(last, rounds);
    }
    Ok((taken[1] - taken[0]) / rounds as f64)
}

fn of_a_function(engine: &Engine, rounds: i64) -> Result<f64, EvalError> {
    let ast = engine.compile("fn sum(a, b) { a + b }")?;
    let mut scope = Scope::new()?;
    let mut total = 0;
    let began = now();
    for i in 0..rounds {
        total = engine.call_fn::<i64>(&mut scope, &ast, "sum", (total, i))?;
    }
    let taken = (now() - began) as f64;
    wants(total, rounds * (rounds - 1) / 2);
    Ok(taken / rounds as f64)
}

fn of_an_array(engine: &Engine, rounds: i64, text: &str, wanted: i64) -> Result<f64, EvalError> {
    let ast = engine.compile(text)?;
    let mut scope = Scope::new()?;
    let began = now();
    for _ in 0..rounds {
        let items: Array = (1..=ITEMS).map(Value::Int).collect();
        wants(engine.call_fn(&mut scope, &ast, "take", (items,))?, wanted);
    }
    Ok((now() - began) as f64 / rounds as f64 / ITEMS as f64)
}

/// Prints the nanoseconds of a call from a script to a function of the host, of a call of a script's function by the host, of an item of an array that
/// is passed in and added up there, and of one that is only passed in.
pub fn embedding(rounds: i64) -> Result<(), EvalError> {
    let mut engine = Engine::new();
    engine.register_fn("next_of", |x: i64| x + 1);
    let (host, function) = (to_the_host(&engine, rounds)?, of_a_function(&engine, rounds)?);
    let arrays = rounds / 100 + 1;
    let added = of_an_array(&engine, arrays, "fn take(a) { let s = 0; for x in a { s += x; } s }", ITEMS * (ITEMS + 1) / 2)?;
    let taken = of_an_array(&engine, arrays, "fn take(a) { a.len() }", ITEMS)?;
    println!("{host:.1} {function:.1} {added:.2} {taken:.2}");
    Ok(())
}
