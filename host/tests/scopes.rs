//! The variables of a scope.
use rhai_world::{Engine, EvalError, Scope, Value};

#[test]
fn variables_come_in_their_order() -> Result<(), EvalError> {
    let mut scope = Scope::of([("x", 1), ("y", 2), ("x", 3)])?;
    scope.push("name", "n")?;
    let all: Vec<_> = scope.iter().collect::<Result<_, _>>()?;
    let named = |name: &str, value: Value| (name.to_owned(), value);
    let expected =
        [named("x", Value::Int(1)), named("y", Value::Int(2)), named("x", Value::Int(3)), named("name", Value::from("n"))];
    assert_eq!(all, expected);
    let mut back = scope.iter();
    assert_eq!((back.len(), back.next_back().transpose()?), (4, Some(expected[3].clone())));
    assert_eq!((back.next().transpose()?, back.len()), (Some(expected[0].clone()), 2));
    assert_eq!(
        (&scope).into_iter().rev().map(|it| it.map(|(name, _)| name)).collect::<Result<Vec<_>, _>>()?,
        ["name", "x", "y", "x"]
    );
    Ok(())
}

#[test]
fn a_scope_may_be_asked_extended_and_cleared() -> Result<(), EvalError> {
    let engine = Engine::new();
    let mut scope = Scope::new()?;
    assert!(scope.is_empty() && !scope.contains("x")? && scope.iter().next().is_none());
    scope.extend([("x", 40)])?.extend(vec![("y".to_owned(), Value::Int(2))])?;
    assert!(scope.contains("x")? && scope.contains("y")? && !scope.contains("z")?);
    assert_eq!(engine.eval_with_scope::<i64>(&mut scope, "let z = x + y; z")?, 42);
    assert!(scope.contains("z")?);
    scope.clear()?;
    assert!(scope.is_empty() && !scope.contains("x")?);
    assert!(engine.run_with_scope(&mut scope, "x").is_err());
    Ok(())
}

#[test]
fn deep_calls_leave_no_memory_behind() -> Result<(), EvalError> {
    let mut engine = Engine::new();
    engine.set_max_call_levels(200_000);
    let mut scope = Scope::of([("kept", "a variable from before")])?;
    let ast = engine.compile("fn deep(n) { if n == 0 { 0 } else { 1 + deep(n - 1) } } let depth = deep(100_000);")?;
    engine.run_ast_with_scope(&mut scope, &ast)?;
    assert_eq!(scope.get::<i64>("depth"), Some(100_000));
    assert_eq!(scope.get::<String>("kept").as_deref(), Some("a variable from before"));
    // (each of these calls had a value of 48 bytes in its frame, and a caller)
    assert!(scope.memory().held < 100_000, "{:?}", scope.memory());
    assert!(scope.memory().most > 5_000_000, "{:?}", scope.memory());
    Ok(())
}
