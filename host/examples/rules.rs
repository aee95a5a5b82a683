//! Rules over orders, which are maps as in JSON: a rule has a script that says whether it applies,
//! and one that changes the order. It prints:
//!
//! ```text
//! a tenth off for members
//! free shipping above a discount of 10
//! #{"discount": 12, "lines": ["pen", "ink"], "member": true, "shipping": 0, "total": 120}
//! ---
//! #{"lines": ["pen"], "member": false, "shipping": 5, "total": 120}
//! no rule `broken`: variable not found: ordre (line 1, column 1)
//! 1 | ordre.total > 0
//!   | ^
//! ```
use rhai_world::{Ast, Engine, Error, EvalError, Limits, Map, Scope, Value, World};

/// When a rule applies, and what it does then.
struct Rule {
    name: &'static str,
    when: Ast,
    then: Ast,
}

impl Rule {
    fn new(engine: &Engine, name: &'static str, when: &str, then: &str) -> Result<Rule, EvalError> {
        Ok(Rule { name, when: engine.compile(when)?, then: engine.compile(then)? })
    }

    /// Applies the rule to the order in the scope if its condition holds, and returns whether it
    /// did.
    fn applies(&self, engine: &Engine, scope: &mut Scope) -> Result<bool, String> {
        let told = |ast: &Ast, error: EvalError| format!("no rule `{}`: {}", self.name, error.render(ast.text()));
        let before = scope.len();
        let holds = engine.eval_ast_with_scope::<bool>(scope, &self.when).map_err(|error| told(&self.when, error))?;
        if holds {
            engine.run_ast_with_scope(scope, &self.then).map_err(|error| told(&self.then, error))?;
        }
        scope.rewind(before).map_err(|error| error.to_string())?;
        Ok(holds)
    }
}

/// Applies rules until no condition holds, each at most once, so that this ends; returns the names
/// of those applied, in order.
fn apply<'a>(engine: &Engine, rules: &'a [Rule], scope: &mut Scope) -> Result<Vec<&'a str>, String> {
    let mut left: Vec<&Rule> = rules.iter().collect();
    let mut held = Vec::new();
    let mut i = 0;
    while i < left.len() {
        if left[i].applies(engine, scope)? {
            held.push(left.remove(i).name);
            i = 0;
        } else {
            i += 1;
        }
    }
    Ok(held)
}

fn order(total: i64, member: bool, lines: &[&str]) -> Map {
    let lines = lines.iter().map(|line| Value::from(*line)).collect();
    let fields = [
        ("total", Value::from(total)),
        ("member", Value::from(member)),
        ("shipping", Value::from(5)),
        ("lines", Value::Array(lines)),
    ];
    fields.into_iter().map(|(key, value)| (key.to_owned(), value)).collect()
}

/// Formats the value as a script's `print` does.
fn shown(value: &Value) -> Result<String, Error> {
    let mut world = World::new(Limits::default())?;
    world.put(value)?;
    world.show(0)
}

fn main() -> Result<(), Box<dyn std::error::Error>> {
    let mut engine = Engine::new();
    engine.set_max_operations(100_000).set_max_memory(1 << 20);
    // (a missing field reads as unit, which is `None`)
    engine.register_fn("or_zero", |field: Option<i64>| field.unwrap_or(0));
    let rules = [
        Rule::new(
            &engine,
            "free shipping above a discount of 10",
            "order.shipping > 0 && or_zero(order.discount) > 10 && order.lines.len() > 1",
            "order.shipping = 0;",
        )?,
        Rule::new(
            &engine,
            "a tenth off for members",
            "order.member && order.discount == ()",
            "let tenth = order.total / 10; order.discount = tenth;",
        )?,
    ];
    for (number, (member, lines)) in [(true, &["pen", "ink"][..]), (false, &["pen"])].into_iter().enumerate() {
        let mut scope = Scope::new()?;
        scope.push("order", order(120, member, lines))?;
        if number > 0 {
            println!("---");
        }
        apply(&engine, &rules, &mut scope)?.iter().for_each(|name| println!("{name}"));
        println!("{}", shown(&scope.value("order")?.unwrap_or(Value::Unit))?);
    }
    let broken = [Rule::new(&engine, "broken", "ordre.total > 0", "order.total = 0;")?];
    let mut scope = Scope::new()?;
    scope.push("order", order(1, false, &[]))?;
    if let Err(why) = apply(&engine, &broken, &mut scope) {
        println!("{why}");
    }
    Ok(())
}
