//! The tables of docs/SPEED.md, between marks that the page has.

use std::collections::HashMap;

/// A ratio with two decimals, or three if it is very small; empty if there is none.
#[must_use]
pub fn ratio(n: f64) -> String {
    if n < 0.01 {
        format!("{n:.3}")
    } else {
        format!("{n:.2}")
    }
}

/// A number with three digits or so, and commas between thousands.
#[must_use]
pub fn number(n: f64) -> String {
    if n < 10.0 {
        return format!("{n:.1}");
    }
    let digits = format!("{n:.0}");
    if n < 100.0 {
        return format!("{n:.1}");
    }
    let mut text = String::new();
    for (at, digit) in digits.chars().enumerate() {
        if at > 0 && (digits.len() - at) % 3 == 0 {
            text.push(',');
        }
        text.push(digit);
    }
    text
}

/// The geometric mean.
#[must_use]
pub fn mean(of: &[f64]) -> f64 {
    (of.iter().map(|n| n.ln()).sum::<f64>() / of.len().max(1) as f64).exp()
}

/// The cells of each row of the page's tables, by the first one. Of rows with the same name the first counts: later tables repeat them.
#[must_use]
pub fn rows_of(page: &str) -> HashMap<String, Vec<String>> {
    let cells = |line: &str| line.trim_matches(['|', ' ']).split('|').map(|cell| cell.trim().to_string()).collect::<Vec<_>>();
    let mut rows = HashMap::new();
    for row in page.lines().filter(|line| line.starts_with("| ")).map(cells).filter(|row| row.len() > 2) {
        rows.entry(row[0].clone()).or_insert(row);
    }
    rows
}

/// The page with this text between the marks of the name.
///
/// # Panics
///
/// If the page doesn't have the marks.
#[must_use]
pub fn with_part(page: &str, name: &str, part: &str) -> String {
    let (begin, end) = (format!("<!-- {name} -->\n"), format!("<!-- end of {name} -->"));
    let start = page.find(&begin).unwrap_or_else(|| panic!("the page has no mark {begin}")) + begin.len();
    let stop = start + page[start..].find(&end).unwrap_or_else(|| panic!("the page has no mark {end}"));
    format!("{}\n{}\n{}", &page[..start], part.trim_end(), &page[stop..])
}
