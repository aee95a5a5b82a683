//! What the page draws of a snapshot, as JSON.
use crate::mark::Marks;
use rhai_world::{Seen, SeenVariables, Shape, Snapshot};
use serde_json::{json, Map, Value};
use std::collections::HashSet;

/// The most values of a picture.
const MOST_VALUES: usize = 2_000;

/// The most items of an array, a map or a function pointer that the user unfolded, and how deep
/// these may be.
const MOST_ITEMS: usize = 200;
const MOST_LEVELS: usize = 60;

/// A folded value of at most `SHORT` items has them all, since they may fit on one line, down to
/// `SHORT_LEVELS`. A longer one has its first `FEW` items, which the page shows, down to
/// `FEW_LEVELS`.
const SHORT: usize = 12;
const SHORT_LEVELS: usize = 10;
const FEW: usize = 8;
const FEW_LEVELS: usize = 4;

/// The most variables of one function, and the most functions.
const MOST_ROWS: usize = 100;
const MOST_CALLS: usize = 12;

/// The most characters of a text.
const MOST_TEXT: usize = 160;

/// The paths of the values that the user unfolded, as the page names them: `f2/list/0` is the first
/// item of the variable `list` of the second function from outside, `cell 3/0` one of a cell's.
pub type Unfolded = HashSet<String>;

/// Returns the paths that a call of the page has.
pub fn unfolded(asked: &Value) -> Unfolded {
    asked["unfolded"].as_array().into_iter().flatten().filter_map(|path| Some(path.as_str()?.to_owned())).collect()
}

/// Returns what is drawn: functions or variables, open marks, the hand, and each cell that these
/// reach. What is left out is counted.
pub fn picture(snapshot: &Snapshot, unfolded: &Unfolded) -> Value {
    let (marks, left) = (Marks::new(snapshot), MOST_VALUES);
    let mut painter = Painter { snapshot, unfolded, marks, left, cells: Vec::new(), path: String::new() };
    let mut drawn = Map::new();
    if snapshot.is_of_run() {
        drawn.insert("calls".to_owned(), painter.calls());
        drawn.insert("allCalls".to_owned(), snapshot.calls().len().into());
    } else {
        drawn.insert("rows".to_owned(), painter.rows("f1", snapshot.variables()));
        drawn.insert("allRows".to_owned(), snapshot.variables().len().into());
    }
    drawn.insert("openMarks".to_owned(), painter.open_marks());
    drawn.insert("allOpenMarks".to_owned(), snapshot.marks().into());
    let hand = snapshot.hand().take(MOST_ROWS).enumerate();
    let hand: Vec<Value> = hand.map(|(at, value)| painter.root(format!("hand/{at}"), value)).collect();
    drawn.insert("hand".to_owned(), hand.into());
    let marks: Vec<Value> = snapshot.hand().take(MOST_ROWS).map(|value| json!(painter.marks.mark(value))).collect();
    drawn.insert("handMarks".to_owned(), marks.into());
    drawn.insert("allHand".to_owned(), snapshot.hand().len().into());
    drawn.insert("cells".to_owned(), painter.contents());
    drawn.insert("values".to_owned(), snapshot.value_count().into());
    Value::Object(drawn)
}

struct Painter<'a> {
    snapshot: &'a Snapshot,
    unfolded: &'a Unfolded,
    marks: Marks<'a>,
    /// How many more values may be drawn.
    left: usize,
    /// The cells that were reached, in order.
    cells: Vec<usize>,
    /// The path of the value that is drawn now.
    path: String,
}

impl<'a> Painter<'a> {
    fn calls(&mut self) -> Value {
        let calls = self.snapshot.calls();
        let all = calls.len();
        let mut drawn = Vec::new();
        for (at, call) in calls.take(MOST_CALLS).enumerate() {
            let place = call.place();
            let rows = self.rows(&format!("f{}", all - at), call.variables());
            let all_rows = call.variables().len();
            drawn.push(json!({
                "name": place.function, "line": place.line, "column": place.column, "rows": rows, "allRows": all_rows,
            }));
        }
        drawn.into()
    }

    fn rows(&mut self, path: &str, variables: SeenVariables<'a>) -> Value {
        let mut rows = Vec::new();
        for (name, value) in variables.take(MOST_ROWS) {
            let name = cut(name);
            let drawn = self.root(format!("{path}/{name}"), value);
            rows.push(json!({ "name": name, "mark": self.marks.mark(value), "value": drawn }));
        }
        rows.into()
    }

    /// Draws the open marks of a world: each is drawn as a holder of its cell.
    fn open_marks(&mut self) -> Value {
        let marks = 0..self.snapshot.marks().min(MOST_ROWS);
        marks.map(|number| self.holder(number)).collect::<Vec<_>>().into()
    }

    fn holder(&mut self, number: usize) -> Value {
        if !self.cells.contains(&number) {
            self.cells.push(number);
        }
        json!({ "k": "cell", "n": number })
    }

    /// Draws a value that is in no other one.
    fn root(&mut self, path: String, value: Seen<'a>) -> Value {
        self.path = path;
        self.value(value, 0)
    }

    /// Draws the cells that were reached, and those that they reach.
    fn contents(&mut self) -> Value {
        let (mut contents, mut at) = (Map::new(), 0);
        while let Some(number) = self.cells.get(at).copied() {
            at += 1;
            if self.left == 0 {
                break;
            }
            if let Some(content) = self.snapshot.cell(number) {
                contents.insert(number.to_string(), self.root(format!("cell {number}"), content));
            }
        }
        Value::Object(contents)
    }

    /// Draws a value: `k` is its kind, `s` its text, `n` the number of values inside, `of`
    /// those that are drawn.
    fn value(&mut self, value: Seen<'a>, level: usize) -> Value {
        self.left = self.left.saturating_sub(1);
        let mut drawn = match value.shape() {
            Shape::Unit => json!({ "k": "unit", "s": "()" }),
            Shape::Bool(truth) => json!({ "k": "bool", "s": truth.to_string() }),
            Shape::Int(n) => json!({ "k": "int", "s": n.to_string() }),
            Shape::Char(character) => json!({ "k": "char", "s": format!("{character:?}") }),
            Shape::Text(text) => json!({ "k": "text", "s": cut(text), "n": text.chars().count() }),
            Shape::Blob(bytes) => json!({ "k": "blob", "s": hex(bytes), "n": bytes.len() }),
            Shape::Other(other) => json!({ "k": "other", "s": other.to_string() }),
            Shape::Closed => json!({ "k": "closed" }),
            Shape::Cell(number) => self.holder(number),
            Shape::Array(items) => json!({ "k": "array", "n": items.len(), "of": self.items(items, level) }),
            Shape::FnPtr(name, items) => {
                json!({ "k": "fn", "s": cut(name), "n": items.len(), "of": self.items(items, level) })
            }
            Shape::Map(fields) => {
                let (count, most) = (fields.len(), self.most(fields.len(), level));
                let keys: Vec<_> = fields.clone().take(most).map(|(key, _)| cut(key)).collect();
                json!({ "k": "map", "n": count, "keys": keys, "of": self.items(fields.map(|(_, value)| value), level) })
            }
            _ => json!({ "k": "other", "s": "?" }),
        };
        if value.is_constant() {
            drawn["const"] = true.into();
        }
        if value.tag() != 0 {
            drawn["tag"] = value.tag().into();
        }
        drawn
    }

    fn items(&mut self, items: impl ExactSizeIterator<Item = Seen<'a>>, level: usize) -> Value {
        let most = self.most(items.len(), level);
        let mut drawn = Vec::new();
        for (at, item) in items.take(most).enumerate() {
            if self.left == 0 {
                break;
            }
            let end = self.path.len();
            self.path.push('/');
            self.path.push_str(&at.to_string());
            drawn.push(self.value(item, level + 1));
            self.path.truncate(end);
        }
        drawn.into()
    }

    /// Returns how many items of the value at the path are drawn, of this many.
    fn most(&self, count: usize, level: usize) -> usize {
        match level {
            MOST_LEVELS.. => 0,
            _ if self.unfolded.contains(&self.path) => MOST_ITEMS,
            ..SHORT_LEVELS if count <= SHORT => count,
            ..FEW_LEVELS => FEW,
            _ => 0,
        }
    }
}

/// Returns the first characters of a text.
pub fn cut(text: &str) -> String {
    text.chars().take(MOST_TEXT).collect()
}

fn hex(bytes: &[u8]) -> String {
    bytes.iter().take(32).map(|byte| format!("{byte:02x}")).collect()
}

#[cfg(test)]
mod tests {
    use super::{picture, unfolded};
    use rhai_world::{Engine, Error, EvalError, Limits, Scope, World};
    use serde_json::{json, Value};

    fn drawn(script: &str, paths: Value) -> Result<Value, EvalError> {
        let mut scope = Scope::new()?;
        Engine::new().run_with_scope(&mut scope, script)?;
        Ok(picture(&scope.snapshot()?, &unfolded(&json!({ "unfolded": paths }))))
    }

    #[test]
    fn shared_cells_are_drawn_once() -> Result<(), EvalError> {
        let drawn = drawn("let n = 7; let add = |by| n += by; const C = [1, 'c'];", json!([]))?;
        assert_eq!(drawn["rows"][0]["value"], json!({ "k": "cell", "n": 0 }));
        assert_eq!(drawn["rows"][1]["value"]["of"], json!([{ "k": "cell", "n": 0 }]));
        assert_eq!(drawn["rows"][2]["value"]["const"], json!(true));
        assert_eq!(drawn["cells"], json!({ "0": { "k": "int", "s": "7" } }));
        assert_eq!(drawn["rows"].as_array().map(Vec::len), Some(3));
        Ok(())
    }

    #[test]
    fn marked_cells_are_drawn_once() -> Result<(), Error> {
        let mut world = World::new(Limits::new())?;
        for line in ["int 7", "share 0", "copy 0", "push x 1", "mark 0"] {
            world.line(line)?;
        }
        let drawn = picture(&world.snapshot()?, &unfolded(&json!({})));
        let holder = json!({ "k": "cell", "n": 0 });
        assert_eq!((&drawn["openMarks"], &drawn["allOpenMarks"]), (&json!([holder]), &json!(1)));
        assert_eq!((&drawn["hand"][0], &drawn["rows"][0]["value"]), (&holder, &holder));
        assert_eq!(drawn["cells"], json!({ "0": { "k": "int", "s": "7" } }));
        Ok(())
    }

    fn count(value: &Value) -> Option<usize> {
        value["of"].as_array().map(Vec::len)
    }

    #[test]
    fn large_values_are_cut() -> Result<(), EvalError> {
        let script = "let all = []; for n in 0..10_000 { all.push([n, #{k: n}]); } let t = \"\"; t.pad(500, 'x');";
        let folded = drawn(script, json!([]))?;
        let all = &folded["rows"][0]["value"];
        assert_eq!((&all["n"], count(all), count(&all["of"][7])), (&json!(10_000), Some(8), Some(2)));
        let text = &folded["rows"][1]["value"];
        assert_eq!((text["s"].as_str().map(str::len), &text["n"]), (Some(160), &json!(500)));
        assert_eq!(folded["values"], json!(40_002));
        assert!(folded.to_string().len() < 2_000);
        let open = drawn(script, json!(["f1/all"]))?;
        assert_eq!(count(&open["rows"][0]["value"]), Some(200));
        Ok(())
    }

    #[test]
    fn unfolded_values_have_their_items() -> Result<(), EvalError> {
        let script = "let deep = 1; for n in 0..9 { deep = [deep]; deep.pad(20, 0); } let see = || deep;";
        let folded = drawn(script, json!([]))?;
        let mut value = &folded["cells"]["0"];
        let mut counts = Vec::new();
        while let Some(inside) = count(value) {
            counts.push(inside);
            value = &value["of"][0];
        }
        assert_eq!(counts, [8, 8, 8, 8, 0]);
        let open = drawn(script, json!(["cell 0/0", "cell 0/0/0/0/0"]))?;
        let outer = &open["cells"]["0"];
        assert_eq!((count(outer), count(&outer["of"][0])), (Some(8), Some(20)));
        assert_eq!(count(&outer["of"][0]["of"][0]["of"][0]["of"][0]), Some(20));
        Ok(())
    }
}
