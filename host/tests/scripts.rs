//! Scripts that end normally, and in every other way.
use rhai_world::{Limits, Script, ScriptError};
use std::num::NonZeroUsize;

fn run(text: &str) -> Result<String, ScriptError> {
    Script::run(text, 1_000_000, Limits::default())
}

#[test]
fn what_is_printed() {
    assert_eq!(run("").as_deref(), Ok(""));
    assert_eq!(run("let x = 6; print(x * 7); print(\"é\");").as_deref(), Ok("42\né\n"));
    assert_eq!(run("fn f(n) { if n < 2 { n } else { f(n - 1) + f(n - 2) } } print(f(10));").as_deref(), Ok("55\n"));
    assert_eq!(run("let a = [1, 2]; a.push(3); print(a); print(#{k: a}.k[2]);").as_deref(), Ok("[1, 2, 3]\n3\n"));
}

/// A body that runs no script, or the empty one, prints nothing; one that calls each end a normal
/// one reports no error.
#[test]
fn an_end_is_that_of_its_text() {
    assert_eq!(run("").as_deref(), Ok(""));
    assert_eq!(run(" // nothing").as_deref(), Ok(""));
    assert_eq!(run("print(1)").as_deref(), Ok("1\n"));
    assert_eq!(run("print(2);\nprint(3);").as_deref(), Ok("2\n3\n"));
    let ended = |text: &str| match run(text) {
        Err(ScriptError::Syntax { line, column, .. }) => (1, line, column, String::new()),
        Err(ScriptError::Fault { line, column, printed, .. }) => (2, line, column, printed),
        found => panic!("{text}: {found:?}"),
    };
    assert_eq!(ended("print(1;"), (1, 1, 8, String::new()));
    assert_eq!(ended("let x = 1;\n\n   +;"), (1, 3, 5, String::new()));
    assert_eq!(ended("print(1);\n  print(y);"), (2, 2, 9, "1\n".into()));
    assert_eq!(ended("throw 1"), (2, 1, 1, String::new()));
}

#[test]
fn no_script() {
    let error = run("print(1);\n  let = 2;").unwrap_err();
    assert_eq!(error.position(), Some((2, 7)));
    assert_eq!(error, ScriptError::Syntax { message: "expected a name".into(), line: 2, column: 7 });
    assert_eq!(error.to_string(), "expected a name (line 2, column 7)");
}

#[test]
fn a_fault_while_it_runs() {
    let error = run("print(1);\nlet x = 1 / 0;").unwrap_err();
    let ScriptError::Fault { message, line, column, printed } = &error else { panic!("{error:?}") };
    assert_eq!((*line, *column, printed.as_str()), (2, 11, "1\n"));
    assert_eq!(error.to_string(), format!("{message} (line 2, column 11)"));
    let thrown = run("throw \"é\";").unwrap_err();
    assert_eq!(thrown.to_string(), "é (line 1, column 1)");
    let source: &dyn std::error::Error = &thrown;
    assert!(source.source().is_none());
}

#[test]
fn limits() {
    let endless = Script::run("let n = 0; loop { n += 1; }", 10_000, Limits::default()).unwrap_err();
    assert!(endless.to_string().starts_with("too many operations"), "{endless}");
    let deep = run("fn f(n) { f(n + 1) } f(0)").unwrap_err();
    assert_eq!(deep.to_string(), "too many calls within each other (line 1, column 11)");
    let long = Script::run("let t = \"ab\"; print(t); loop { t += t; }", 10_000, Limits::new().with_text(NonZeroUsize::new(100)))
        .unwrap_err();
    assert!(matches!(&long, ScriptError::Fault { printed, .. } if printed == "ab\n"), "{long}");
    let items = Script::run("let a = [1, 2, 3]; a += a;", 10_000, Limits::new().with_items(NonZeroUsize::new(4)));
    assert!(matches!(items, Err(ScriptError::Fault { .. })), "{items:?}");
}

#[test]
fn a_run_knows_nothing_of_the_last() {
    assert!(run("let x = 1;").is_ok());
    assert!(run("print(x);").is_err());
    let threads: Vec<_> = (0..4).map(|n| std::thread::spawn(move || run(&format!("print({n} + 1);")))).collect();
    let printed: Vec<String> = threads.into_iter().map(|thread| thread.join().unwrap().unwrap()).collect();
    assert_eq!(printed, ["1\n", "2\n", "3\n", "4\n"]);
}
