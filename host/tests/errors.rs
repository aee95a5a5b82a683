//! The texts of errors.
use rhai_world::{EvalError, ScriptError, Value};

fn at(line: u32, column: u32) -> EvalError {
    EvalError::Runtime { message: "no".to_owned(), line, column, calls: Vec::new() }
}

#[test]
fn a_caret_stands_beneath_the_column() {
    let text = "let x = 1;\nx + nowhere\r\n\tx + y;\n\u{4e16}\u{754c} + z\n";
    assert_eq!(at(1, 1).render(text), "no (line 1, column 1)\n1 | let x = 1;\n  | ^");
    assert_eq!(at(2, 5).render(text), "no (line 2, column 5)\n2 | x + nowhere\n  |     ^");
    assert_eq!(at(3, 6).render(text), "no (line 3, column 6)\n3 | \tx + y;\n  | \t    ^");
    assert_eq!(at(4, 6).render(text), "no (line 4, column 6)\n4 | \u{4e16}\u{754c} + z\n  |      ^");
    // (the end of the text is on a line of its own, and a column past the end of a line counts as
    // its end)
    assert_eq!(at(5, 1).render(text), "no (line 5, column 1)\n5 | \n  | ^");
    assert_eq!(at(5, 9).render(text), "no (line 5, column 9)\n5 | \n  | ^");
    let tenth = "\n".repeat(9) + "tenth";
    assert_eq!(at(10, 3).render(&tenth), "no (line 10, column 3)\n10 | tenth\n   |   ^");
}

#[test]
fn without_a_place_or_its_line_there_is_the_message() {
    assert_eq!(at(0, 0).render("let x = 1;"), "no");
    assert_eq!(at(7, 1).render("let x = 1;"), "no (line 7, column 1)");
    assert_eq!(EvalError::Ended.render("x"), "the run has ended");
    assert_eq!(ScriptError::OutOfMemory.render("x"), "out of memory");
    let syntax = ScriptError::Syntax { message: "what is this".to_owned(), line: 1, column: 3 };
    assert_eq!(syntax.render("x ?"), "what is this (line 1, column 3)\n1 | x ?\n  |   ^");
    assert_eq!((syntax.line(), syntax.column()), (Some(1), Some(3)));
}

#[test]
fn each_error_that_ends_a_run_has_its_place() {
    let (line, column) = (3, 4);
    let errors = [
        (at(line, column), "no"),
        (EvalError::Syntax { message: "no script".to_owned(), line, column }, "no script"),
        (EvalError::TooManyOperations { line, column, calls: Vec::new() }, "too many operations"),
        (EvalError::TooMuchTime { line, column, calls: Vec::new() }, "too much time"),
        (EvalError::TooMuchOutput { line, column, calls: Vec::new() }, "too much output"),
        (
            EvalError::NotPrinted { why: "it is full".to_owned(), line, column, calls: Vec::new() },
            "what was printed can't be written: it is full",
        ),
        (EvalError::Interrupted { line, column, calls: Vec::new() }, "interrupted"),
        (EvalError::Terminated { reason: Value::from("enough"), line, column, calls: Vec::new() }, "terminated: enough"),
        (EvalError::Terminated { reason: Value::Unit, line, column, calls: Vec::new() }, "terminated: Unit"),
        (EvalError::OutOfMemory { line, column, calls: Vec::new() }, "out of memory"),
    ];
    for (error, message) in errors {
        assert_eq!((error.line(), error.column(), error.position()), (Some(3), Some(4), Some((3, 4))));
        assert_eq!(error.to_string(), format!("{message} (line 3, column 4)"));
    }
    assert_eq!((EvalError::Unexpected.line(), EvalError::Unexpected.column()), (None, None));
}
