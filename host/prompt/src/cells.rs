//! Lists what variables and closures share.
use rhai_world::{Seen, Shape, Snapshot};
use std::fmt::Write;

/// How many levels of a value are shown.
const LEVELS: usize = 4;

/// How many of the values inside of each value are shown.
const ITEMS: usize = 8;

/// Lists the shared cells, one a line: its number, its content, and what holds it. Cells have the
/// numbers of the snapshot; a value inside of a cell shows the cells that it holds by these.
pub fn cells(snapshot: &Snapshot) -> String {
    let contents: Vec<Seen<'_>> = (0..).map_while(|number| snapshot.cell(number)).collect();
    let mut holders = vec![Vec::new(); contents.len()];
    for (name, value) in snapshot.variables() {
        note(&mut holders, name, value);
    }
    for (number, content) in contents.iter().enumerate() {
        note(&mut holders, &format!("#{number}"), *content);
    }
    let mut lines = String::new();
    for (number, (content, holders)) in contents.iter().zip(holders).enumerate() {
        let mut shown = String::new();
        show(&mut shown, *content, LEVELS);
        lines.push_str(&format!("#{number} = {shown}, held by {}\n", holders.join(", ")));
    }
    lines
}

/// Notes the name of a value at each cell that it holds, once.
fn note(holders: &mut [Vec<String>], name: &str, value: Seen<'_>) {
    let mut noted = Vec::new();
    for inside in value.walk() {
        let Shape::Cell(number) = inside.shape() else {
            continue;
        };
        let Some(holders) = holders.get_mut(number) else {
            continue;
        };
        if !noted.contains(&number) {
            noted.push(number);
            holders.push(name.to_owned());
        }
    }
}

/// Shows a value as far as these levels.
fn show(out: &mut String, value: Seen<'_>, levels: usize) {
    // (a text takes what is written to it)
    let _written = match value.shape() {
        Shape::Unit => write!(out, "()"),
        Shape::Bool(truth) => write!(out, "{truth}"),
        Shape::Int(number) => write!(out, "{number}"),
        Shape::Char(character) => write!(out, "{character:?}"),
        Shape::Text(text) => write!(out, "{text:?}"),
        Shape::Blob(bytes) => write!(out, "a blob of {} bytes", bytes.len()),
        Shape::Array(items) => {
            list(out, "[", items.map(|item| (None, item)), "]", levels);
            Ok(())
        }
        Shape::Map(fields) => {
            list(out, "#{", fields.map(|(key, item)| (Some(key), item)), "}", levels);
            Ok(())
        }
        Shape::FnPtr(name, captured) => {
            list(out, &format!("Fn({}", name.escape_debug()), captured.map(|item| (None, item)), ")", levels);
            Ok(())
        }
        Shape::Other(value) => write!(out, "{value}"),
        Shape::Cell(number) => write!(out, "#{number}"),
        Shape::Closed => write!(out, "(in use)"),
        _ => write!(out, "(another value)"),
    };
}

/// Shows the values inside of a value.
fn list<'a>(
    out: &mut String,
    begin: &str,
    items: impl ExactSizeIterator<Item = (Option<&'a str>, Seen<'a>)>,
    end: &str,
    levels: usize,
) {
    let (count, most) = (items.len(), if levels == 0 { 0 } else { ITEMS });
    out.push_str(begin);
    let is_function = begin.starts_with("Fn");
    for (number, (key, item)) in items.take(most).enumerate() {
        out.push_str(if number > 0 || is_function { ", " } else { "" });
        if let Some(key) = key {
            out.push_str(&format!("{key:?}: "));
        }
        show(out, item, levels - 1);
    }
    if count > most {
        out.push_str(if most > 0 || is_function { ", .." } else { ".." });
    }
    out.push_str(end);
}

#[cfg(test)]
mod tests {
    use super::*;
    use rhai_world::{Engine, EvalError, Scope};

    fn cells_of(text: &str) -> Result<String, EvalError> {
        let mut scope = Scope::new()?;
        Engine::new().run_with_scope(&mut scope, text)?;
        Ok(cells(&scope.snapshot()?))
    }

    #[test]
    fn each_cell_is_listed_once_with_its_holders() -> Result<(), EvalError> {
        assert_eq!(cells_of("let n = 7; n")?, "");
        assert_eq!(
            cells_of("let n = 7; let add = |by| n += by; let none = (); let all = [add, 1];")?.replace(char::is_numeric, "0"),
            "#0 = 0, held by n, add, all\n"
        );
        let within = cells_of("let n = 1; let f = || n; let g = || f; f = ();")?;
        assert_eq!(within.lines().count(), 2, "{within}");
        assert!(within.starts_with("#0 = 1, held by n") && within.contains("#1 = (), held by f, g"), "{within}");
        Ok(())
    }

    #[test]
    fn a_value_that_holds_itself_is_shown() -> Result<(), EvalError> {
        assert_eq!(cells_of("let a = [1]; let f = || a; a.push(f); f = ();")?.lines().count(), 1);
        Ok(())
    }

    #[test]
    fn large_values_are_cut() -> Result<(), EvalError> {
        let shown = cells_of("let a = [[[[[[1]]]]], 2, 3, 4, 5, 6, 7, 8, 9, 10]; let f = || a;")?;
        assert_eq!(shown, "#0 = [[[[[..]]]], 2, 3, 4, 5, 6, 7, 8, ..], held by a, f\n");
        let text = cells_of("let t = \"a\\nb\"; let c = 'x'; let m = #{k: 1..3}; let f = || [t, c, m];")?;
        assert_eq!(text, "#0 = \"a\\nb\", held by t, f\n#1 = 'x', held by c, f\n#2 = #{\"k\": 1..3}, held by m, f\n");
        Ok(())
    }
}
