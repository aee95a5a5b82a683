//! How errors are shown.
use rhai_world::EvalError;

/// How many characters of a line are shown.
const WIDE: usize = 160;

/// Renders the error with its line, for a script that ran after a text of earlier functions.
pub fn report(error: EvalError, earlier: &str, script: &str) -> String {
    let before = u32::try_from(earlier.lines().count()).unwrap_or(u32::MAX);
    let rendered = match error.line() {
        Some(line) if line <= before => format!("in an earlier function: {}", around(&error.render(earlier))),
        Some(_) => around(&moved(error.clone(), before).render(script)),
        None => error.to_string(),
    };
    let calls = calls(&error, before);
    shown(&format!("{rendered}{calls}"))
}

/// Returns the active functions, one per line, if the script called any; the first `before` lines are functions of earlier scripts.
fn calls(error: &EvalError, before: u32) -> String {
    let mut lines = String::new();
    if let calls @ [_, _, ..] = error.calls() {
        for call in calls {
            let mut call = call.clone();
            let earlier = if call.line <= before { ", defined earlier" } else { "" };
            if call.line > before {
                call.line -= before;
            }
            lines += &format!("\n  {call}{earlier}");
        }
    }
    lines
}

/// Moves the error this many lines up.
fn moved(mut error: EvalError, by: u32) -> EvalError {
    match &mut error {
        EvalError::Syntax { line, .. }
        | EvalError::Runtime { line, .. }
        | EvalError::TooManyOperations { line, .. }
        | EvalError::TooMuchTime { line, .. }
        | EvalError::TooMuchOutput { line, .. }
        | EvalError::NotPrinted { line, .. }
        | EvalError::Interrupted { line, .. }
        | EvalError::Terminated { line, .. }
        | EvalError::OutOfMemory { line, .. } => *line = line.saturating_sub(by),
        // (the others have no line)
        _ => {}
    }
    error
}

/// Shortens a very long line to the part around the caret.
fn around(rendered: &str) -> String {
    let mut parts = rendered.rsplitn(3, '\n');
    let (Some(caret), Some(line), Some(message)) = (parts.next(), parts.next(), parts.next()) else {
        return rendered.to_owned();
    };
    if !caret.ends_with('^') || line.chars().count() <= WIDE {
        return rendered.to_owned();
    }
    let from = caret.chars().count().saturating_sub(WIDE / 2);
    let (before, blank) = if from > 0 { ("..", "  ") } else { ("", "") };
    let shown: String = line.chars().skip(from).take(WIDE).collect();
    let after = if line.chars().count() > from + WIDE { ".." } else { "" };
    let beneath: String = caret.chars().skip(from).collect();
    format!("{message}\n{before}{shown}{after}\n{blank}{beneath}")
}

/// Replaces what must not go to a terminal.
pub fn shown(text: &str) -> String {
    text.chars()
        .map(|character| if character.is_control() && !matches!(character, '\n' | '\t') { '\u{fffd}' } else { character })
        .collect()
}

#[cfg(test)]
mod tests {
    use super::*;

    fn runtime(line: u32, column: u32) -> EvalError {
        EvalError::Runtime { message: "it went wrong".to_owned(), line, column, calls: Vec::new() }
    }

    #[test]
    fn a_caret_stands_beneath_the_place() {
        let found = report(runtime(2, 5), "", "let x = 1;\nx + nowhere");
        assert_eq!(found, "it went wrong (line 2, column 5)\n2 | x + nowhere\n  |     ^");
    }

    #[test]
    fn lines_of_earlier_functions_do_not_count() {
        let earlier = "fn f() {\n  1 / 0 }\n";
        let found = report(runtime(4, 5), earlier, "let x = 1;\nx + y");
        assert_eq!(found, "it went wrong (line 2, column 5)\n2 | x + y\n  |     ^");
        let found = report(runtime(2, 5), earlier, "f()");
        assert_eq!(found, "in an earlier function: it went wrong (line 2, column 5)\n2 |   1 / 0 }\n  |     ^");
    }

    #[test]
    fn what_has_no_place_is_its_message() {
        assert_eq!(report(runtime(0, 0), "fn f() {}\n", "x"), "it went wrong");
    }

    #[test]
    fn of_a_very_long_line_the_place_is_shown() {
        let script = format!("{}x + y;{}", " ".repeat(1000), " ".repeat(1000));
        // (the caret comes after a margin of four characters and 1004 blanks and marks; 80 of
        // these, including the caret, are left)
        let expected =
            format!("it went wrong (line 1, column 1005)\n..{}x + y;{}..\n  {}^", " ".repeat(75), " ".repeat(79), " ".repeat(79));
        assert_eq!(report(runtime(1, 1005), "", &script), expected);
        let script = format!("y;{}", " ".repeat(1000));
        let expected = format!("it went wrong (line 1, column 1)\n1 | y;{}..\n  | ^", " ".repeat(154));
        assert_eq!(report(runtime(1, 1), "", &script), expected);
    }

    #[test]
    fn control_characters_are_not_sent_to_a_terminal() {
        assert_eq!(report(runtime(1, 1), "", "\u{1b}[2J"), "it went wrong (line 1, column 1)\n1 | \u{fffd}[2J\n  | ^");
    }
}
