//! Measures the forms beside the port and the released files.
//!
//! Usage: floors TURNS PART PAGE: the rows whose names contain PART, the least of TURNS turns. PAGE is docs/SPEED.md, or nothing.

use floors::measured::{count, run_one, Told};
use floors::{forms, hashes};
use std::fmt::Write as _;
use times::page::{number, rows_of};
use times::rows::ROWS;

/// SipHash is tried on the starts of this text.
const TEXT: &str = "a text of more than three words";

fn cell(n: Option<f64>) -> String {
    n.map_or("-".into(), number)
}

/// A line for each form, with what both sides take.
fn table(told: &[Told]) -> String {
    let mut text = String::from("| row | form | ns | to rhai | port to it | rhai ns | port ns | instructions | rhai | port |\n");
    text.push_str("|---|---|---|---|---|---|---|---|---|---|\n");
    for row in told {
        let [port, rhai] = row.sides;
        for form in &row.forms {
            let mark = if form.keeps { "" } else { " (beside)" };
            let note = if form.agrees { "" } else { " CHECKSUMS DIFFER" };
            let ratios = format!("{:.2} | {:.2}", form.taken.ns / rhai.ns, port.ns / form.taken.ns);
            let times = format!("{} | {}", number(rhai.ns), number(port.ns));
            let counts = [form.taken.instructions, rhai.instructions, port.instructions].map(cell).join(" | ");
            let (name, what, ns) = (row.name, form.name, number(form.taken.ns));
            let _ = writeln!(text, "| {name} | {what}{mark}{note} | {ns} | {ratios} | {times} | {counts} |");
        }
    }
    text
}

/// A line for each row: its fastest form that keeps the promises.
fn floors(told: &[Told]) -> String {
    let mut text = String::from(
        "| row | port to rhai | floor to rhai | port to floor | rhai ns | floor ns | port ns | the floor's form |\n",
    );
    text.push_str("|---|---|---|---|---|---|---|---|\n");
    for row in told {
        let [port, rhai] = row.sides;
        let kept = row.kept();
        let Some(floor) = kept.first() else { continue };
        let ns = floor.taken.ns;
        let times = [rhai.ns, ns, port.ns].map(number).join(" | ");
        let ratios = format!("{:.2} | {:.2} | {:.2}", row.ratio(), ns / rhai.ns, port.ns / ns);
        let _ = writeln!(text, "| {} | {ratios} | {times} | {} |", row.name, floor.name);
    }
    text
}

/// A line for each row that is above its goal, here or on the page: the forms that keep the promises, without the fastest, which
/// `floors` has.
fn forms_of_rows_behind(told: &[Told], page: &str) -> String {
    let rows = rows_of(page);
    let on_page = |row: &Told| rows.get(row.name).and_then(|cells| cells.get(2)?.parse().ok());
    let is_behind = |row: &Told| row.is_behind(row.ratio()) || on_page(row).is_some_and(|ratio| row.is_behind(ratio));
    let mut text = String::from("| row | ns of the other forms |\n|---|---|\n");
    for row in told.iter().filter(|row| is_behind(row)) {
        let forms: Vec<String> =
            row.kept().iter().skip(1).map(|form| format!("{} {}", form.name, number(form.taken.ns))).collect();
        let _ = writeln!(text, "| {} | {} |", row.name, forms.join(", "));
    }
    text
}

fn main() {
    let args: Vec<String> = std::env::args().collect();
    if let [_, one, side, which, rounds] = args.as_slice() {
        if one == "one" {
            return run_one(side, which.parse().expect("a number"), rounds.parse().expect("a number"));
        }
    }
    let turns = args.get(1).and_then(|turns| turns.parse().ok()).expect("the number of turns");
    let part = args.get(2).map_or("", String::as_str);
    let page = args.get(3).and_then(|page| std::fs::read_to_string(page).ok()).unwrap_or_default();
    let alike = (0..=TEXT.len()).all(|end| hashes::hashes_alike(&TEXT[..end]));
    assert!(alike, "SipHash is not that of the standard library");
    let forms = forms::all();
    let mut told = Vec::new();
    for row in ROWS.iter().filter(|row| row.name.contains(part)) {
        told.extend(Told::of(row, &forms, turns));
    }
    count(&mut told);
    println!("{}\n{}\n{}", table(&told), floors(&told), forms_of_rows_behind(&told, &page));
    let differ = told.iter().flat_map(|row| &row.forms).filter(|form| !form.agrees).count();
    std::process::exit(i32::from(differ > 0));
}
