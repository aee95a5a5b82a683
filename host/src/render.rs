//! Errors shown with the line of the script.
use std::fmt::Display;

/// Renders the message and, if there is a position, the numbered line of the text with a caret
/// below the column.
pub(crate) fn rendered(message: impl Display, place: Option<(u32, u32)>, text: &str) -> String {
    let message = message.to_string();
    let Some((number, column)) = place else {
        return message;
    };
    let Some(line) = text.split('\n').nth((number as usize).saturating_sub(1)) else {
        return message;
    };
    let line = line.strip_suffix('\r').unwrap_or(line);
    let number = number.to_string();
    let margin = " ".repeat(number.len());
    format!("{message}\n{number} | {line}\n{margin} | {}^", before_caret(line, column))
}

/// Returns a space for each character before the column, and a tab for each tab, so that the caret
/// is below the column.
fn before_caret(line: &str, column: u32) -> String {
    let before = line.chars().take((column as usize).saturating_sub(1));
    before.map(|character| if character == '\t' { '\t' } else { ' ' }).collect()
}
