//! Passes a struct into a script, and gets another one out of it.
use rhai_world::{Engine, Scope, Value};
use rhai_world_serde::{from_value, to_value};
use serde::{Deserialize, Serialize};

#[derive(Serialize)]
struct Order {
    of: String,
    amount: u32,
}

#[derive(Deserialize, Debug)]
struct Bill {
    text: String,
    cents: u64,
}

fn main() -> Result<(), Box<dyn std::error::Error>> {
    let order = Order { of: "apple".to_owned(), amount: 3 };
    let mut scope = Scope::new()?;
    scope.push("order", to_value(&order)?)?;
    let script = "#{text: order.of + \": \" + order.amount, cents: order.amount * 25}";
    let bill: Bill = from_value(Engine::new().eval_with_scope::<Value>(&mut scope, script)?)?;
    println!("{}, {} cents", bill.text, bill.cents);
    Ok(())
}
