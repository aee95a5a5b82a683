//! Limits on memory.
use rhai_world::{Call, Engine, Error, EvalError, Function, Limits, Operator, Scope, Script, ScriptError, Value, World};
use std::num::NonZeroUsize;

const MEGABYTE: usize = 1 << 20;

fn world_of(bytes: usize) -> Result<World, Error> {
    World::new(Limits::new().with_memory(NonZeroUsize::new(bytes)))
}

#[test]
fn a_world_holds_what_it_was_given() -> Result<(), Error> {
    let mut world = World::new(Limits::default())?;
    let empty = world.memory();
    assert!(empty.held > 0 && empty.held <= empty.most && empty.most < MEGABYTE);
    world.put_text(&"x".repeat(4 * MEGABYTE))?;
    let full = world.memory();
    assert!(full.held >= empty.held + 4 * MEGABYTE && full.held < empty.held + 9 * MEGABYTE, "{full:?}");
    world.drop()?;
    let dropped = world.memory();
    assert!(dropped.held < empty.held + MEGABYTE && dropped.most >= full.held, "{dropped:?}");
    Ok(())
}

#[test]
fn past_the_cap_memory_is_refused_and_the_world_goes_on() -> Result<(), Error> {
    let mut world = world_of(MEGABYTE)?;
    world.put_text("kept")?;
    assert_eq!(world.put_text(&"x".repeat(2 * MEGABYTE)), Err(Error::OutOfMemory));
    assert_eq!(world.hand_len(), 1);
    let mut count = 0;
    let refused = loop {
        match world.put_blob(&[7; 10_000]) {
            Ok(()) => count += 1,
            Err(error) => break error,
        }
    };
    assert_eq!(refused, Error::OutOfMemory);
    // (a blob of 10,000 bytes takes at least as many)
    assert!(count > 10 && count < MEGABYTE / 10_000, "{count}");
    // (the last block is rounded up by at most a page)
    assert!(world.memory().most <= MEGABYTE + 4096, "{:?}", world.memory());
    for _ in 0..count {
        world.drop()?;
    }
    assert_eq!(world.show(0)?, "kept");
    world.put_blob(&[7; 10_000])?;
    Ok(())
}

#[test]
fn a_cap_may_come_and_go() -> Result<(), Error> {
    let mut world = World::new(Limits::default())?;
    world.put_text(&"x".repeat(MEGABYTE))?;
    world.set_max_memory(NonZeroUsize::new(1000));
    assert_eq!(world.put_text(&"y".repeat(1000)), Err(Error::OutOfMemory));
    world.set_max_memory(None);
    world.put_text(&"y".repeat(1000))?;
    world.binary(Operator::Plus, 0, 1)?;
    assert_eq!(world.value(2)?, Some(Value::from("x".repeat(MEGABYTE) + &"y".repeat(1000))));
    Ok(())
}

#[test]
fn a_cap_that_no_world_fits_in() {
    assert_eq!(world_of(1).err(), Some(Error::OutOfMemory));
}

#[test]
fn worlds_beside_it_are_not_touched() -> Result<(), Error> {
    let mut small = world_of(MEGABYTE)?;
    let mut large = World::new(Limits::default())?;
    let before = large.memory();
    assert_eq!(small.put_text(&"x".repeat(2 * MEGABYTE)), Err(Error::OutOfMemory));
    assert_eq!(large.memory(), before);
    large.put_text(&"x".repeat(2 * MEGABYTE))?;
    let held = small.memory().held;
    drop(large);
    assert_eq!(small.memory().held, held);
    let thread = std::thread::spawn(move || world_of(0)?.put_text(&"x".repeat(2 * MEGABYTE)));
    assert_eq!(thread.join().unwrap(), Ok(()));
    assert_eq!(small.memory().held, held);
    Ok(())
}

/// Scripts that grow without end: an array, a text, nested maps, nested calls, and the output.
const BOMBS: [&str; 5] = [
    "let a = []; loop { a.push(1); }",
    "let t = \"ab\"; loop { t += t; }",
    "let m = #{}; loop { m = #{of: m}; }",
    "deeper([])",
    "loop { print(\"some text that is printed\"); }",
];

/// The function that one of them calls.
const DEEPER: &str = "fn deeper(x) { deeper([x]) }";

#[test]
fn scripts_end_at_the_cap_and_variables_stay() -> Result<(), EvalError> {
    let mut engine = Engine::new();
    engine.set_max_memory(MEGABYTE / 4).set_max_call_levels(usize::MAX).on_print(|_| {});
    for bomb in &BOMBS[..4] {
        let mut scope = Scope::new()?;
        let text = format!("{DEEPER} let kept = 7; try {{ {bomb} }} catch {{ kept = 8; }}");
        assert!(matches!(engine.run_with_scope(&mut scope, &text), Err(EvalError::OutOfMemory { .. })), "{bomb}");
        assert!(scope.memory().most <= MEGABYTE / 4 + 4096, "{bomb}: {:?}", scope.memory());
        assert_eq!(scope.get::<i64>("kept"), Some(7), "{bomb}");
        scope.rewind(1)?;
        scope.push("more", "x".repeat(3 * MEGABYTE).as_str())?;
        scope.rewind(1)?;
        assert_eq!(engine.eval_with_scope::<i64>(&mut scope, "kept + 1")?, 8, "{bomb}");
    }
    Ok(())
}

#[test]
fn a_script_that_is_too_large_to_be_read() {
    let mut engine = Engine::new();
    engine.set_max_memory(100_000);
    let text = "let x = 1;\n".repeat(100_000);
    assert!(matches!(engine.compile(&text), Err(EvalError::OutOfMemory { .. })));
    assert!(matches!(engine.eval::<i64>("1 + 1"), Ok(2)));
}

#[test]
fn scripts_alone() {
    let limits = Limits::new().with_memory(NonZeroUsize::new(MEGABYTE / 4));
    for bomb in BOMBS {
        let found = Script::run(&format!("{DEEPER} {bomb}"), 100_000_000, limits);
        assert!(matches!(found, Err(ScriptError::Fault { .. } | ScriptError::OutOfMemory)), "{bomb}: {found:?}");
    }
    assert_eq!(Script::run("print(1)", 1_000, limits).as_deref(), Ok("1\n"));
}

/// A script whose functions the program calls, and which calls functions of the program in every way: with an argument that is changed,
/// one that fails, and one that calls a function back, which calls the program.
const CALLED_BACK: &str = "
    let words = []; each([1, 2, 3], |n| { total += n; words.add(`word number ` + n); });
    try { each([4], |n| each([n], |m| { throw m + words.len(); })); } catch (why) { total += why; }
    let all = #{words: [words, words], text: `another text that is longer`}; all.words[1].add(all.text);
    try { fail(all.text + all.text); } catch (why) { all.why = why; }
    let f = same(|n| { total += n; echo(all).words[1].len() }); f.call(total) * 1000 + total";

#[test]
fn each_cap_ends_a_program_that_calls_back_or_not() -> Result<(), EvalError> {
    let mut engine = Engine::new();
    engine
        .register_fn("each", |call: &mut Call, items: Vec<i64>, f: Function| -> Result<(), EvalError> {
            items.into_iter().try_for_each(|item| call.call(&f, (item,)))
        })
        .register_fn("add", |words: &mut Vec<String>, word: String| words.push(word))
        .register_fn("fail", |why: String| Err::<(), _>(why))
        .register_fn("same", |f: Function| f)
        .register_fn("echo", |value: Value| value);
    let ast = engine.compile_with_scope(&Scope::of([("total", 0)])?, &CALLED_BACK.replace('`', "\""))?;
    let (mut done, mut refused) = (0, 0);
    for bytes in (16..80_000).step_by(112) {
        let mut scope = Scope::of([("total", 0)])?;
        // (of the items 1, 2 and 3 the total is 6; with 4 and three words 13; twice that in the end, where four words are in the copy)
        match engine.set_max_memory(bytes).eval_ast_with_scope::<i64>(&mut scope, &ast) {
            Ok(value) => done += usize::from(value == 4_026),
            Err(EvalError::OutOfMemory { .. }) => refused += 1,
            Err(error) => panic!("{bytes} bytes: {error:?}"),
        }
        assert!(matches!(scope.get::<i64>("total"), Some(0 | 1 | 3 | 6 | 13 | 26)), "{bytes} bytes");
        scope.clear()?;
        scope.push("total", 0)?;
        assert_eq!(engine.set_max_memory(0).eval_ast_with_scope::<i64>(&mut scope, &ast)?, 4_026, "after {bytes} bytes");
    }
    assert!(done > 100 && refused > 100, "{done} were done, {refused} were refused");
    Ok(())
}

#[test]
fn a_refused_argument_has_its_place() -> Result<(), EvalError> {
    let mut engine = Engine::new();
    engine.register_fn("see", |_value: Value| ()).set_max_memory(1 << 20);
    let mut scope = Scope::new()?;
    // (what closures share is in the argument once for each of two closures at each of 40 levels)
    let text = "let x = 1; for i in 0..40 { let y = x; x = [|| y, || y]; }\nlet n = 7;\ntry { see(x); } catch { n = 8; }";
    let refused = engine.run_with_scope(&mut scope, text).unwrap_err();
    assert!(matches!(refused, EvalError::OutOfMemory { line: 3, column: 7, .. }), "{refused:?}");
    assert_eq!(scope.get::<i64>("n"), Some(7));
    Ok(())
}
