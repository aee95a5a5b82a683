//! A spreadsheet whose cells are scripts, which refer to other cells by name. It prints:
//!
//! ```text
//! A1 = 120
//! A2 = 80
//! A3 = 200
//! B1 = 38
//! B2 = "large"
//! C1: uses itself, by other cells or at once
//! C2: uses itself, by other cells or at once
//! E1: division by zero (line 1, column 3)
//! E2: E1 has no value
//! F1: too many operations (line 1, column 1)
//! ```
use rhai_world::{Engine, Error, EvalError, Limits, Scope, Value, World};
use std::collections::{BTreeMap, BTreeSet};

const CELLS: [(&str, &str); 10] = [
    ("A1", "120"),
    ("A2", "A1 * 2 / 3"),
    ("A3", "sum([A1, A2])"),
    ("B1", "A3 * 19 / 100"),
    ("B2", "if A3 > 150 { \"large\" } else { \"small\" }"),
    ("C1", "C2 + 1"),
    ("C2", "C1 - 1"),
    ("E1", "1 / 0"),
    ("E2", "E1 + 1"),
    ("F1", "loop {}"),
];

/// The value of a cell, or its error.
type Found = Result<Value, String>;

/// Cells by name.
struct Sheet<'a> {
    cells: BTreeMap<&'a str, &'a str>,
    engine: Engine,
}

impl<'a> Sheet<'a> {
    /// Makes a sheet of these cells, with small limits on time and memory.
    fn new(cells: impl IntoIterator<Item = (&'a str, &'a str)>) -> Sheet<'a> {
        let mut engine = Engine::new();
        engine.set_max_operations(10_000).set_max_memory(1 << 20);
        engine.register_fn("sum", |numbers: Vec<i64>| {
            let sum = numbers.iter().try_fold(0_i64, |sum, n| sum.checked_add(*n));
            sum.ok_or("the sum is too large")
        });
        Sheet { cells: cells.into_iter().collect(), engine }
    }

    /// Returns the cells that a script names.
    fn used_by(&self, script: &str) -> BTreeSet<&'a str> {
        let words = script.split(|character: char| !character.is_ascii_alphanumeric());
        words.filter_map(|word| self.cells.get_key_value(word)).map(|(name, _)| *name).collect()
    }

    /// Evaluates all cells, each after those that it uses.
    fn found(&self) -> BTreeMap<&'a str, Found> {
        let mut left: BTreeMap<_, _> = self.cells.iter().map(|(name, script)| (*name, self.used_by(script))).collect();
        let mut found = BTreeMap::new();
        loop {
            let is_ready = |uses: &BTreeSet<&str>| uses.iter().all(|used| found.contains_key(used));
            let ready: Vec<_> = left.iter().filter(|(_, uses)| is_ready(uses)).map(|(name, _)| *name).collect();
            if ready.is_empty() {
                break;
            }
            for name in ready {
                let uses = left.remove(name).unwrap_or_default();
                let value = self.find(self.cells[name], &uses, &found);
                found.insert(name, value);
            }
        }
        found.extend(left.into_keys().map(|name| (name, Err("uses itself, by other cells or at once".to_owned()))));
        found
    }

    /// Runs the script of a cell over the cells that it uses.
    fn find(&self, script: &str, uses: &BTreeSet<&str>, found: &BTreeMap<&str, Found>) -> Found {
        let told = |error: EvalError| error.to_string();
        let mut scope = Scope::new().map_err(told)?;
        for used in uses {
            match found.get(used) {
                Some(Ok(value)) => scope.push(used, value.clone()).map_err(told)?,
                Some(Err(_)) | None => return Err(format!("{used} has no value")),
            };
        }
        self.engine.eval_with_scope(&mut scope, script).map_err(told)
    }
}

/// Formats the value as a script's `debug` does.
fn shown(value: &Value) -> Result<String, Error> {
    let mut world = World::new(Limits::default())?;
    world.put(value)?;
    world.debug(0)
}

fn main() -> Result<(), Error> {
    for (name, found) in Sheet::new(CELLS).found() {
        match found {
            Ok(value) => println!("{name} = {}", shown(&value)?),
            Err(why) => println!("{name}: {why}"),
        }
    }
    Ok(())
}
