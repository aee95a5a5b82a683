//! Values of the program's own types in scripts.
use rhai_world::{Array, Call, Engine, EvalError, Function, Object, Objects, Saved, Scope, Value};
use std::sync::atomic::{AtomicI64, AtomicUsize, Ordering};
use std::sync::Arc;

/// A counter, and how many of them there are.
struct Counter {
    count: AtomicI64,
    alive: Arc<AtomicUsize>,
}

impl Drop for Counter {
    fn drop(&mut self) {
        self.alive.fetch_sub(1, Ordering::Relaxed);
    }
}

/// Makes an engine for scripts that make counters.
fn engine(objects: &Objects, alive: &Arc<AtomicUsize>) -> Engine {
    let (made, alive) = (objects.clone(), Arc::clone(alive));
    let mut engine = Engine::new();
    engine
        .register_fn("counter", move |count: i64| {
            alive.fetch_add(1, Ordering::Relaxed);
            made.add("Counter", Counter { count: count.into(), alive: Arc::clone(&alive) })
        })
        .register_fn("add", |to: Object<Counter>, n: i64| to.count.fetch_add(n, Ordering::Relaxed) + n)
        .register_fn("value", |of: Object<Counter>| of.count.load(Ordering::Relaxed))
        .register_fn("sum", |all: Vec<Object<Counter>>| all.iter().map(|one| one.count.load(Ordering::Relaxed)).sum::<i64>())
        .register_fn("after", |call: &mut Call, one: Object<Counter>, f: Function| call.call::<i64>(&f, (one,)));
    engine
}

#[test]
fn scripts_hold_pass_and_compare_objects() -> Result<(), EvalError> {
    let (objects, alive) = (Objects::new(), Arc::default());
    let engine = engine(&objects, &alive);
    assert_eq!(engine.eval::<i64>("let c = counter(40); c.add(2); let same = c; add(same, 1); c.value()")?, 43);
    let all = "let a = counter(1); let b = counter(1); let in_map = #{a: a, list: [b, a]};";
    let same = "[a == in_map.list[1], a == b, a != b, in_map.a == a, [a, b] == [a, b], [a, b] == [b, a]]";
    assert_eq!(engine.eval::<[bool; 6]>(&format!("{all} {same}"))?, [true, false, true, true, true, false]);
    assert_eq!(engine.eval::<i64>(&format!("{all} in_map.a.add(5); sum([a, b, a])"))?, 13);
    assert_eq!(engine.eval::<i64>("let n = 3; let c = counter(1); let f = || c.value() + n; f.call()")?, 4);
    assert_eq!(engine.eval::<i64>("let c = counter(1); after(c, |one| one.add(1)) * 10 + c.value()")?, 22);
    assert_eq!(engine.eval::<String>("let c = counter(1); `${c} ${c.name} ${type_of(c)}`")?, "Fn(Counter) Counter Fn");
    Ok(())
}

#[test]
fn rust_gets_the_objects_of_scripts() -> Result<(), EvalError> {
    let (objects, alive) = (Objects::new(), Arc::default());
    let engine = engine(&objects, &alive);
    let mut scope = Scope::new()?;
    let own = objects.add("Counter", Counter { count: 7.into(), alive: Arc::clone(&alive) });
    alive.fetch_add(1, Ordering::Relaxed);
    scope.push("own", own.clone())?;
    let found: Object<Counter> = engine.eval_with_scope(&mut scope, "let made = counter(2); own.add(1); own")?;
    assert!(found == own && found.name() == "Counter" && found.count.load(Ordering::Relaxed) == 8);
    let made = scope.try_get::<Object<Counter>>("made")?.expect("there is one");
    assert!(made != own && made.count.load(Ordering::Relaxed) == 2);
    assert_eq!(engine.call_fn::<i64>(&mut scope, &engine.compile("fn twice(of) { of.value() * 2 }")?, "twice", (own,))?, 16);
    Ok(())
}

#[test]
fn what_is_no_such_object_is_refused() -> Result<(), EvalError> {
    let (objects, alive) = (Objects::new(), Arc::default());
    let mut engine = engine(&objects, &alive);
    let made = objects.clone();
    engine.register_fn("text", move |text: &str| made.add("Text", text.to_owned()));
    let wrong = engine.eval::<i64>("value(7)").unwrap_err().to_string();
    assert!(wrong.contains("argument 1 is an int") && wrong.contains("Counter"), "{wrong}");
    let wrong = engine.eval::<i64>("let t = text(\"a\"); t.value()").unwrap_err().to_string();
    assert!(wrong.contains("argument 1 is a function") && wrong.contains("Counter"), "{wrong}");
    for script in ["value(Fn(\"Counter\"))", "let c = counter(1); value(c.curry(1))", "value(Fn(\"Counter\").curry(1))"] {
        assert!(matches!(engine.eval::<i64>(script), Err(EvalError::Runtime { .. })), "{script}");
    }
    assert!(matches!(engine.eval::<i64>("counter(1).call()"), Err(EvalError::Runtime { .. })));
    assert_eq!(engine.eval::<i64>("try { text(\"a\").value() } catch { -1 }")?, -1);
    Ok(())
}

#[test]
fn removed_objects_are_refused_and_dropped() -> Result<(), EvalError> {
    let (objects, alive) = (Objects::new(), Arc::default());
    let engine = engine(&objects, &alive);
    let mut scope = Scope::new()?;
    let removed: Object<Counter> = engine.eval_with_scope(&mut scope, "let a = counter(1); let b = counter(2); a")?;
    assert!(objects.remove(&removed) && !objects.remove(&removed) && !Objects::new().remove(&removed));
    // (what Rust holds stays)
    assert_eq!((removed.count.load(Ordering::Relaxed), objects.len(), alive.load(Ordering::Relaxed)), (1, 1, 2));
    drop(removed);
    assert_eq!(alive.load(Ordering::Relaxed), 1);
    let error = engine.eval_with_scope::<i64>(&mut scope, "a.value()").unwrap_err().to_string();
    assert!(error.contains("the object was removed"), "{error}");
    assert_eq!(engine.eval_with_scope::<i64>(&mut scope, "b.value()")?, 2);
    objects.clear();
    assert_eq!((objects.is_empty(), alive.load(Ordering::Relaxed)), (true, 0));
    assert!(engine.eval_with_scope::<i64>(&mut scope, "b.value()").is_err());
    Ok(())
}

#[test]
fn what_no_variable_holds_is_removed() -> Result<(), EvalError> {
    let (objects, alive) = (Objects::new(), Arc::default());
    let engine = engine(&objects, &alive);
    let mut scope = Scope::new()?;
    let script = "let kept = [counter(1), #{of: counter(2)}];
        let f = { let inner = counter(3); || inner.value() };
        for n in 0..100 { counter(n); } f.call()";
    assert_eq!(engine.eval_with_scope::<i64>(&mut scope, script)?, 3);
    let other = Objects::new();
    let theirs = other.add("Other", 7_i64);
    assert_eq!(objects.len(), 103);
    objects.retain_in(&scope)?;
    other.retain_in(&scope)?;
    assert_eq!((objects.len(), alive.load(Ordering::Relaxed), other.len(), *theirs), (3, 3, 0, 7));
    assert_eq!(engine.eval_with_scope::<i64>(&mut scope, "kept[0].value() + kept[1].of.value()")?, 3);
    drop(engine);
    drop(objects);
    assert_eq!(alive.load(Ordering::Relaxed), 0);
    Ok(())
}

#[test]
fn saved_numbers_lead_to_the_objects_of_the_process() -> Result<(), EvalError> {
    let (objects, alive) = (Objects::new(), Arc::default());
    let engine = engine(&objects, &alive);
    let mut scope = Scope::new()?;
    engine.run_with_scope(&mut scope, "let c = counter(5);")?;
    let bytes = scope.save()?.as_bytes().to_vec();
    let read = std::thread::spawn(move || {
        let mut scope = Saved::from_bytes(bytes).restore()?;
        engine.eval_with_scope::<i64>(&mut scope, "c.value()")
    });
    assert_eq!(read.join().expect("no panic")?, 5);
    // (a number that another process made)
    let captured: Array = [Value::U128(u128::from(u64::MAX) << 64)].into_iter().collect();
    let strange = Value::FnPtr("Counter".to_owned(), captured);
    let refused = Object::<Counter>::try_from(strange).map(drop).unwrap_err();
    assert_eq!(refused.to_string(), "the value doesn't fit: the object was removed");
    Ok(())
}
