//! Tests of the program as it is called.
use std::io::Write;
use std::path::{Path, PathBuf};
use std::process::{Command, Stdio};

/// The exit status and the output of the program.
struct Ended {
    status: Option<i32>,
    out: String,
    errors: String,
}

/// Calls the program with these arguments and this input.
fn call(words: &[&str], input: &str) -> Ended {
    let mut program = Command::new(env!("CARGO_BIN_EXE_rhai-world"));
    program.args(words).stdin(Stdio::piped()).stdout(Stdio::piped()).stderr(Stdio::piped());
    let mut child = program.spawn().expect("the program is there");
    let mut stdin = child.stdin.take().expect("it is piped");
    let input = input.to_owned();
    // (a program that doesn't read to the end closes the pipe)
    let writer = std::thread::spawn(move || drop(stdin.write_all(input.as_bytes())));
    let ended = child.wait_with_output().expect("it ends");
    writer.join().expect("it ends");
    let text = |bytes: Vec<u8>| String::from_utf8(bytes).expect("the program writes texts");
    Ended { status: ended.status.code(), out: text(ended.stdout), errors: text(ended.stderr) }
}

/// Makes a file with this text.
fn file(name: &str, text: &[u8]) -> PathBuf {
    let path = Path::new(env!("CARGO_TARGET_TMPDIR")).join(name);
    std::fs::write(&path, text).expect("the folder may be written");
    path
}

fn text_of(path: &Path) -> &str {
    path.to_str().expect("the folder's name is a text")
}

#[test]
fn texts_show_their_value_as_debug_does() {
    for (text, shown) in [
        ("6 * 7", "42\n"),
        ("\"a\"", "\"a\"\n"),
        ("'c'", "'c'\n"),
        ("[1, \"x\", ()]", "[1, \"x\", ()]\n"),
        ("#{a: 1}", "#{\"a\": 1}\n"),
        ("let x = 1;", ""),
        ("print(1); 2", "1\n2\n"),
        ("1..3", "1..3\n"),
    ] {
        let ended = call(&["-e", text], "");
        assert_eq!((ended.status, ended.out.as_str(), ended.errors.as_str()), (Some(0), shown, ""), "{text}");
    }
}

#[test]
fn files_run_without_their_value() {
    let path = file("twice.rhai", b"fn twice(x) { x * 2 }\nprint(twice(21));\n7");
    let ended = call(&[text_of(&path)], "");
    assert_eq!((ended.status, ended.out.as_str()), (Some(0), "42\n"));
    let ended = call(&["-"], "print(\"in\");\n7");
    assert_eq!((ended.status, ended.out.as_str()), (Some(0), "in\n"));
}

#[test]
fn a_script_that_fails_ends_with_1() {
    let ended = call(&["-e", "let x = 1;\nx + nowhere"], "");
    assert_eq!((ended.status, ended.out.as_str()), (Some(1), ""));
    assert_eq!(ended.errors, "error: variable not found: nowhere (line 2, column 5)\n2 | x + nowhere\n  |     ^\n");
    let ended = call(&["-e", "let x = ;"], "");
    assert_eq!(ended.status, Some(1));
    assert!(ended.errors.ends_with("(line 1, column 9)\n1 | let x = ;\n  |         ^\n"), "{}", ended.errors);
    assert_eq!(call(&["-e", "throw \"why\""], "").status, Some(1));
}

#[test]
fn what_can_not_be_run_ends_with_2() {
    for words in [&["--fast"][..], &["-e"], &["a", "b"], &["--time", "x"], &["/nowhere/at/all.rhai"]] {
        let ended = call(words, "");
        assert_eq!((ended.status, ended.out.as_str()), (Some(2), ""), "{words:?}");
        assert!(ended.errors.starts_with("error: "), "{}", ended.errors);
    }
    let path = file("no_text.rhai", b"print(1);\xff");
    assert_eq!(call(&[text_of(&path)], "").status, Some(2));
}

#[test]
fn help_and_version() {
    let ended = call(&["--help"], "");
    assert!(ended.status == Some(0) && ended.out.starts_with("Usage: rhai-world"));
    assert_eq!(call(&["--version"], "").out, "rhai-world 0.1.0\n");
}

#[test]
fn budgets_hold() {
    let ended = call(&["--operations", "1000", "-e", "loop {}"], "");
    assert!(ended.status == Some(1) && ended.errors.starts_with("error: too many operations (line 1"), "{}", ended.errors);
    let ended = call(&["--memory", "1000000", "-e", "let all = []; loop { all.push(1); }"], "");
    assert!(ended.status == Some(1) && ended.errors.starts_with("error: out of memory (line 1"), "{}", ended.errors);
    // (the text of a blob has two digits per byte)
    let ended = call(&["--memory", "300000", "-e", "blob(100000, 7)"], "");
    assert!(ended.status == Some(1) && ended.errors.starts_with("error: out of memory"), "{}", ended.errors);
    let ended = call(&["--time", "0.05", "-e", "loop {}"], "");
    assert!(ended.status == Some(1) && ended.errors.starts_with("error: too much time (line 1"), "{}", ended.errors);
}

#[test]
fn a_prompt_keeps_variables_and_functions() {
    let lines = "let x = 20;\nfn twice(n) {\n  n * 2\n}\nx += 1; twice(x)\n\n[1,\n 2]\n:scope\n";
    let ended = call(&[], lines);
    assert_eq!((ended.status, ended.out.as_str(), ended.errors.as_str()), (Some(0), "42\n[1, 2]\nx = 21\n", ""));
    // (a function replaces one with the same name and number of parameters, but not if its text
    // can't be compiled)
    let ended = call(&[], "fn f() { 1 }\nfn f(a) { a }\nf() + f(10)\nfn f() { 2 }\nf() + f(10)\nfn f() { +; }\nf()\n");
    assert_eq!((ended.status, ended.out.as_str()), (Some(1), "11\n12\n2\n"));
}

#[test]
fn errors_of_a_prompt_have_the_lines_of_what_was_typed() {
    let ended = call(&[], "fn half(x) {\n  if x % 2 == 1 { throw \"odd\" }\n  x / 2\n}\n{\n  nowhere\n}\nhalf(3)\n");
    assert_eq!(ended.status, Some(1));
    let expected = "error: variable not found: nowhere (line 2, column 3)\n2 |   nowhere\n  |   ^\n";
    assert!(ended.errors.starts_with(expected), "{}", ended.errors);
    assert!(ended.errors.contains("error: in an earlier function: "), "{}", ended.errors);
}

#[test]
fn commands_of_a_prompt() {
    let path = file("loaded.rhai", b"let loaded = 7; fn thrice(x) { x * 3 }");
    let ended = call(&[], &format!(":load {}\nthrice(loaded)\n:quit\n1\n", text_of(&path)));
    assert_eq!((ended.status, ended.out.as_str(), ended.errors.as_str()), (Some(0), "21\n", ""));
    let ended = call(&[], ":load /nowhere/at/all\n:what\n1\n");
    assert_eq!((ended.status, ended.out.as_str()), (Some(1), "1\n"));
    assert!(ended.errors.contains("/nowhere/at/all: ") && ended.errors.contains("no such command: :what"), "{}", ended.errors);
    assert!(call(&[], ":help\n").out.contains(":load FILE"));
    let ended = call(&[], ":cells\nlet n = 7; let m = [n];\n{ let inner = 1; m.push(|| inner); }\n:cells\n");
    assert_eq!((ended.status, ended.out.as_str(), ended.errors.as_str()), (Some(0), "#0 = 1, held by m\n", ""));
    let ended = call(&[], "{\n:drop\n2\n");
    assert_eq!((ended.status, ended.out.as_str()), (Some(0), "2\n"));
}

#[test]
fn a_prompt_goes_on_behind_what_fails() {
    let ended = call(&[], "1 +\n2\nlet y = 3; y / 0\ny\n");
    assert_eq!((ended.status, ended.out.as_str()), (Some(1), "2\n3\n"));
    // (what is still open at the end is run, and reported)
    let ended = call(&[], "{ 1\n");
    assert_eq!((ended.status, ended.out.as_str()), (Some(1), ""));
    assert!(ended.errors.starts_with("error: "));
}

#[test]
fn no_colours_go_to_a_pipe() {
    let ended = call(&[], "1\nnowhere\n");
    assert!(!ended.out.contains('\u{1b}') && !ended.errors.contains('\u{1b}'));
    let ended = call(&["-e", "\"\u{1b}[2J\" + ;"], "");
    assert!(!ended.errors.contains('\u{1b}'), "{}", ended.errors);
}

#[test]
fn deep_values_are_shown() {
    let ended = call(&["-e", "let a = []; for i in 0..1000 { a = [a]; } a"], "");
    assert_eq!((ended.status, ended.errors.as_str()), (Some(0), ""));
    assert_eq!(ended.out, format!("{}{}\n", "[".repeat(1001), "]".repeat(1001)));
}
