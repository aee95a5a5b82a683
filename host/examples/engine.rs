//! A script that calls a function of the program, with a variable of the program.
use rhai_world::{Engine, EvalError, Scope};

fn main() -> Result<(), EvalError> {
    let mut engine = Engine::new();
    engine.register_fn("price", |of: &str, amount: i64| match of {
        "apple" => Ok(3 * amount),
        other => Err(format!("no price of {other}")),
    });
    engine.set_max_operations(100_000);
    let ast = engine.compile("stock -= 2; price(\"apple\", 2) + stock")?;
    let mut scope = Scope::new()?;
    scope.push("stock", 40)?;
    println!("{}", engine.eval_ast_with_scope::<i64>(&mut scope, &ast)?);
    Ok(())
}
