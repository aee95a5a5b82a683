//! What ends a run from outside: time, output, interrupts, and the program.
use rhai_world::{Call, Engine, EvalError, Function, Progress, Scope, Value};
use std::sync::atomic::{AtomicU64, Ordering};
use std::sync::{mpsc, Arc, Mutex};
use std::time::{Duration, Instant};

/// A script that would never end, and catches what it can.
const ENDLESS: &str = "let n = 0; let caught = false;\nwhile true { try { loop { n += 1; } } catch { caught = true; } }";

/// Checks that such a script ended, and left its variables to further runs.
fn is_whole(scope: &mut Scope) -> Result<(), EvalError> {
    assert_eq!(scope.names()?, ["n", "caught"]);
    assert_eq!(scope.get::<bool>("caught"), Some(false));
    let n = scope.get::<i64>("n").unwrap_or_default();
    assert_eq!(Engine::new().eval_with_scope::<i64>(scope, "n += 1; n")?, n + 1);
    Ok(())
}

#[test]
fn a_run_may_take_so_long() -> Result<(), EvalError> {
    let mut engine = Engine::new();
    engine.set_max_time(Duration::from_millis(30));
    let mut scope = Scope::new()?;
    let error = engine.run_with_scope(&mut scope, ENDLESS).unwrap_err();
    assert!(matches!(error, EvalError::TooMuchTime { line: 2, .. }), "{error:?}");
    assert!(error.position().is_some_and(|(line, _)| line == 2));
    is_whole(&mut scope)
}

#[test]
fn functions_of_the_program_take_time_too() -> Result<(), EvalError> {
    let mut engine = Engine::new();
    engine.set_max_time(Duration::from_millis(20));
    engine.register_fn("nap", || std::thread::sleep(Duration::from_millis(40)));
    let mut scope = Scope::new()?;
    scope.push("x", 1)?;
    assert!(matches!(engine.run_with_scope(&mut scope, "nap(); x = 2;"), Err(EvalError::TooMuchTime { line: 1, .. })));
    assert_eq!(scope.get::<i64>("x"), Some(1));
    Ok(())
}

#[test]
fn the_time_between_pieces_does_not_count() -> Result<(), EvalError> {
    let mut engine = Engine::new();
    engine.set_max_time(Duration::from_secs(1));
    let ast = engine.compile("let n = 0; loop { n += 1; if n == 100 { break n; } }")?;
    let mut scope = Scope::new()?;
    let mut run = engine.start(&mut scope, &ast)?;
    assert_eq!(run.go(10)?, Progress::Paused);
    std::thread::sleep(Duration::from_millis(1_100));
    assert_eq!(run.go(100_000)?, Progress::Done(Value::Int(100)));
    Ok(())
}

#[test]
fn all_runs_have_to_be_done_by_a_deadline() -> Result<(), EvalError> {
    let mut engine = Engine::new();
    engine.set_deadline(Some(Instant::now() + Duration::from_millis(500)));
    let mut scope = Scope::new()?;
    let error = engine.run_with_scope(&mut scope, ENDLESS).unwrap_err();
    assert!(matches!(error, EvalError::TooMuchTime { .. }), "{error:?}");
    assert!(engine.eval::<i64>("1").is_err());
    engine.set_deadline(None);
    assert_eq!(engine.eval::<i64>("1")?, 1);
    is_whole(&mut scope)?;
    // (it also passes while a run is paused)
    let deadline = Instant::now() + Duration::from_millis(20);
    engine.set_deadline(Some(deadline));
    let ast = engine.compile("let n = 0; loop { n += 1; if n == 100 { break n; } }")?;
    let mut run = engine.start(&mut scope, &ast)?;
    std::thread::sleep(deadline.saturating_duration_since(Instant::now()));
    assert!(matches!(run.go(100_000), Err(EvalError::TooMuchTime { .. })));
    Ok(())
}

#[test]
fn another_thread_may_end_it() -> Result<(), EvalError> {
    let mut engine = Engine::new();
    let interrupt = engine.interrupt();
    let (tell, told) = mpsc::channel();
    engine.register_fn("begun", move || tell.send(()).map_err(|error| error.to_string()));
    let thread = std::thread::spawn(move || {
        told.recv().unwrap();
        interrupt.pull();
    });
    let mut scope = Scope::new()?;
    let error = engine.run_with_scope(&mut scope, &format!("begun(); {ENDLESS}")).unwrap_err();
    assert!(matches!(error, EvalError::Interrupted { line: 1 | 2, .. }), "{error:?}");
    thread.join().unwrap();
    // (the interrupt may come before the first statement after the call)
    if scope.len() == 2 {
        is_whole(&mut scope)?;
    }
    Ok(())
}

#[test]
fn a_pull_is_for_the_runs_under_way() -> Result<(), EvalError> {
    let engine = Engine::new();
    let interrupt = engine.interrupt();
    interrupt.pull();
    assert_eq!(engine.eval::<i64>("1 + 1")?, 2);
    let ast = engine.compile(ENDLESS)?;
    let mut scope = Scope::new()?;
    let mut run = engine.start(&mut scope, &ast)?;
    assert_eq!(run.go(5_000)?, Progress::Paused);
    interrupt.clone().pull();
    let error = run.go(5_000).unwrap_err();
    assert!(matches!(error, EvalError::Interrupted { line: 2, .. }), "{error:?}");
    assert_eq!((run.go(5_000), run.operations()), (Err(EvalError::Ended), 5_000));
    drop(run);
    is_whole(&mut scope)?;
    assert_eq!(engine.eval::<i64>("1 + 1")?, 2);
    Ok(())
}

#[test]
fn the_program_is_asked_as_a_run_goes_on() -> Result<(), EvalError> {
    let mut engine = Engine::new();
    let asked = Arc::new(Mutex::new(vec![0]));
    let kept = Arc::clone(&asked);
    engine.on_progress(move |operations| {
        kept.lock().unwrap().push(operations);
        (operations > 20_000).then(|| Value::from("enough"))
    });
    let mut scope = Scope::new()?;
    let error = engine.run_with_scope(&mut scope, ENDLESS).unwrap_err();
    assert!(matches!(&error, EvalError::Terminated { reason, line: 2, .. } if *reason == Value::from("enough")), "{error:?}");
    assert!(error.to_string().starts_with("terminated: enough (line 2, column "), "{error}");
    let asked = asked.lock().unwrap().clone();
    assert!(asked.windows(2).all(|pair| pair[0] < pair[1] && pair[1] - pair[0] <= 1_024), "{asked:?}");
    assert!(asked.last().is_some_and(|last| (20_001..=21_024).contains(last)), "{asked:?}");
    is_whole(&mut scope)
}

#[test]
fn the_program_is_asked_after_each_of_its_functions() -> Result<(), EvalError> {
    let mut engine = Engine::new();
    let asked = Arc::new(AtomicU64::new(0));
    let counted = Arc::clone(&asked);
    engine.register_fn("tick", || ());
    engine.on_progress(move |_| {
        counted.fetch_add(1, Ordering::Relaxed);
        None
    });
    engine.run("for i in 0..10 { tick(); }")?;
    assert!(asked.load(Ordering::Relaxed) >= 10);
    Ok(())
}

fn lines_of(engine: &mut Engine) -> Arc<Mutex<Vec<String>>> {
    let lines = Arc::new(Mutex::new(Vec::new()));
    let kept = Arc::clone(&lines);
    engine.on_print(move |line| kept.lock().unwrap().push(line.to_owned()));
    lines
}

#[test]
fn a_run_may_print_so_much() -> Result<(), EvalError> {
    let mut engine = Engine::new();
    let lines = lines_of(&mut engine);
    // (each line takes four bytes)
    engine.set_max_output(10);
    let mut scope = Scope::new()?;
    let error = engine.run_with_scope(&mut scope, "let x = 7; try { loop { print(\"abc\"); } } catch { x = 8; }").unwrap_err();
    assert!(matches!(error, EvalError::TooMuchOutput { line: 1, .. }), "{error:?}");
    assert_eq!(*lines.lock().unwrap(), ["abc", "abc"]);
    assert_eq!(scope.get::<i64>("x"), Some(7));
    engine.set_max_output(8);
    engine.run("print(\"abc\"); print(\"abc\");")?;
    assert!(matches!(engine.run("print(\"abc\"); print(\"abcd\");"), Err(EvalError::TooMuchOutput { .. })));
    engine.set_max_output(0);
    engine.run("for i in 0..100 { print(i); }")?;
    Ok(())
}

#[test]
fn output_is_handed_on_as_it_comes() -> Result<(), EvalError> {
    let mut engine = Engine::new();
    let lines = lines_of(&mut engine);
    let missing = Arc::new(AtomicU64::new(0));
    let counted = Arc::clone(&missing);
    engine.set_max_output(1_000).on_progress(move |_| {
        if lines.lock().unwrap().is_empty() {
            counted.fetch_add(1, Ordering::Relaxed);
        }
        None
    });
    engine.run("print(1); let n = 0; while n < 10_000 { n += 1; }")?;
    assert_eq!(missing.load(Ordering::Relaxed), 0);
    Ok(())
}

#[test]
fn a_pull_acts_within_1024_operations() -> Result<(), EvalError> {
    let mut engine = Engine::new();
    let (interrupt, pulled) = (engine.interrupt(), Arc::new(AtomicU64::new(0)));
    let kept = Arc::clone(&pulled);
    engine.on_progress(move |operations| {
        if operations > 5_000 && kept.compare_exchange(0, operations, Ordering::Relaxed, Ordering::Relaxed).is_ok() {
            interrupt.pull();
        }
        None
    });
    let mut scope = Scope::new()?;
    let ast = engine.compile(ENDLESS)?;
    let mut run = engine.start(&mut scope, &ast)?;
    assert!(matches!(run.go(u64::MAX), Err(EvalError::Interrupted { line: 2, .. })));
    let since = run.operations() - pulled.load(Ordering::Relaxed);
    assert!(since <= 1_024, "{since}");
    drop(run);
    is_whole(&mut scope)
}

#[test]
fn time_and_output_are_limited_within_calls_back() -> Result<(), EvalError> {
    let mut engine = Engine::new();
    let lines = lines_of(&mut engine);
    engine.register_fn("swallow", |call: &mut Call, f: Function| call.call::<Value>(&f, ()).is_ok());
    engine.set_max_output(6);
    let mut scope = Scope::new()?;
    let text = "let n = 7; swallow(|| { swallow(|| { try { loop { print(n); } } catch { } }); n = 8; }); n = 9;";
    let error = engine.run_with_scope(&mut scope, text).unwrap_err();
    assert!(matches!(error, EvalError::TooMuchOutput { line: 1, .. }), "{error:?}");
    assert_eq!((lines.lock().unwrap().len(), scope.get::<i64>("n")), (3, Some(7)));
    engine.set_max_output(0).set_max_time(Duration::from_millis(30));
    let error = engine.run("swallow(|| { try { loop { } } catch { } }); loop { }").unwrap_err();
    assert!(matches!(error, EvalError::TooMuchTime { line: 1, column: 1..=30, .. }), "{error:?}");
    Ok(())
}
