//! Functions of a script that the program holds: the script passes them, and the program calls them
//! when something happens.
//!
//! ```text
//! Ada was told of 3 events
//! an event of 40, 50 in all
//! an event of 2, 52 in all
//! after: 52 in all, prices [1, 2, 9]
//! ```
use rhai_world::{Call, Engine, EvalError, Function, Scope};
use std::sync::{Arc, Mutex};

const SCRIPT: &str = r#"
    let total = 0;
    on_event(|amount| {
        total += amount;
        if amount > 1 && total > 40 { print("an event of " + amount + ", " + total + " in all"); }
    });
    let prices = [9, 1, 2];
    prices.order();
    let told = 0;
    each(["a", "b", "c"], |name| told += 1);
    print("Ada was told of " + told + " events");
"#;

fn main() -> Result<(), EvalError> {
    let listeners = Arc::new(Mutex::new(Vec::<Function>::new()));
    let mut engine = Engine::new();
    let known = Arc::clone(&listeners);
    // kept for later
    engine.register_fn("on_event", move |f: Function| known.lock().expect("no one panics").push(f));
    // called while the script waits
    engine.register_fn("each", |call: &mut Call, items: Vec<String>, f: Function| -> Result<(), EvalError> {
        items.into_iter().try_for_each(|item| call.call(&f, (item,)))
    });
    // changes its receiver
    engine.register_fn("order", |prices: &mut Vec<i64>| prices.sort_unstable());

    let ast = engine.compile(SCRIPT)?;
    let mut scope = Scope::new()?;
    engine.run_ast_with_scope(&mut scope, &ast)?;
    let listeners = listeners.lock().expect("no one panics").clone();
    for amount in [10, 40, 2] {
        for listener in &listeners {
            listener.call::<()>(&engine, &mut scope, &ast, (amount,))?;
        }
    }
    let (total, prices) = (scope.try_get::<i64>("total")?, scope.try_get::<Vec<i64>>("prices")?);
    println!("after: {} in all, prices {:?}", total.unwrap_or(0), prices.unwrap_or_default());
    Ok(())
}
