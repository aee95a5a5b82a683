//! Random scripts. Variables and expressions have types, so that most scripts run for a while; some fail, and some never end.
use crate::random::Random;
use rhai_world::{Array, Map, Value};

const INTS: [&str; 4] = ["i", "j", "n", "k"];
const TEXTS: [&str; 2] = ["s", "t"];
const ARRAYS: [&str; 2] = ["a", "b"];
const MAPS: [&str; 2] = ["m", "o"];
const FUNCTIONS: [&str; 2] = ["f", "g"];
const VALUES: [&str; 2] = ["x", "y"];

/// The functions that each script has, with their numbers of parameters.
pub const NAMED: [(&str, usize); 5] = [("none", 0), ("one", 1), ("two", 2), ("down", 1), ("again", 1)];

/// Returns the variables that each script may use.
pub fn variables(random: &mut Random) -> Vec<(&'static str, Value)> {
    let mut all = Vec::new();
    all.extend(INTS.map(|name| (name, Value::from(random.below(9) as i64 - 2))));
    all.extend(TEXTS.map(|name| (name, Value::from("word".repeat(random.below(3) as usize)))));
    all.extend(ARRAYS.map(|name| (name, (0..random.below(5)).map(|_| leaf(random)).collect::<Array>().into())));
    all.extend(MAPS.map(|name| (name, Map::from_iter([("k".to_owned(), leaf(random)), ("l".to_owned(), leaf(random))]).into())));
    all.extend(FUNCTIONS.map(|name| (name, Value::FnPtr("one".to_owned(), Array::new()))));
    all.extend(VALUES.map(|name| (name, leaf(random))));
    all
}

fn leaf(random: &mut Random) -> Value {
    match random.below(8) {
        0 => Value::Unit,
        1 => Value::from(true),
        2 => Value::from('c'),
        3 => Value::from("text"),
        4 => Value::from(1..4),
        5 => Value::Blob(vec![1, 2, 3]),
        _ => Value::from(random.below(20) as i64),
    }
}

/// Returns a script: functions, then statements.
pub fn script(random: &mut Random) -> String {
    let count = 1 + random.below(8);
    let mut maker = Maker { random, parameters: None, loops: 0 };
    let mut lines = maker.functions();
    lines.extend((0..count).map(|_| {
        let depth = maker.random.pick(&[1, 1, 2, 2, 3]);
        maker.statement(depth)
    }));
    if !maker.random.one_in(4) {
        lines.push(maker.value(2));
    }
    lines.join("\n")
}

struct Maker<'a> {
    random: &'a mut Random,
    /// The parameters, within a function, which sees no other variables.
    parameters: Option<&'static [&'static str]>,
    /// How many loops are around.
    loops: usize,
}

/// Declarations and statements.
impl Maker<'_> {
    fn functions(&mut self) -> Vec<String> {
        let mut lines = Vec::new();
        for (name, parameters) in [("none", &[][..]), ("one", &["p"][..]), ("two", &["p", "q"][..])] {
            self.parameters = Some(parameters);
            let within = if self.random.one_in(3) { self.statement(1) } else { String::new() };
            lines.push(format!("fn {name}({}) {{ {within} {} }}", parameters.join(", "), self.int(2)));
        }
        self.parameters = None;
        lines.push("fn down(p) { if p <= 0 { 0 } else { 1 + down(p - 1) } }".to_owned());
        lines.push("fn again(p) { if p <= 0 { 0 } else { 1 + apply(Fn(\"again\"), p - 1) } }".to_owned());
        lines.push("fn add_to(p) { this.push(p); this.len() }".to_owned());
        lines
    }

    fn block(&mut self, depth: u64) -> String {
        let count = 1 + self.random.below(3);
        let lines: Vec<String> = (0..count).map(|_| self.statement(depth)).collect();
        format!("{{ {} }}", lines.join(" "))
    }

    /// A block in a closure, which ends no loop around it.
    fn closed_block(&mut self, depth: u64) -> String {
        let loops = std::mem::take(&mut self.loops);
        let block = self.block(depth);
        self.loops = loops;
        block
    }

    fn statement(&mut self, depth: u64) -> String {
        if depth == 0 || self.parameters.is_some() {
            return format!("print({});", self.value(1));
        }
        match self.random.below(24) {
            0..=2 => self.declares(depth),
            3..=6 => self.assigns(depth),
            7..=9 => self.changes(depth),
            10 | 11 => self.branches(depth),
            12..=14 => self.repeats(depth),
            15 => format!("try {} catch (why) {{ print(why); }}", self.block(depth - 1)),
            16 => self.fails(),
            17..=20 => self.calls_back(depth),
            21 if self.loops > 0 => format!("if {} {{ {}; }}", self.truth(1), self.random.pick(&["break", "continue"])),
            _ => format!("print({});", self.value(depth)),
        }
    }

    fn declares(&mut self, depth: u64) -> String {
        match self.random.below(8) {
            0 | 1 => format!("let {} = {};", self.random.pick(&INTS), self.int(depth)),
            2 => format!("let {} = {};", self.random.pick(&TEXTS), self.text(depth)),
            3 => format!("let {} = {};", self.random.pick(&ARRAYS), self.array(depth)),
            4 => format!("let {} = {};", self.random.pick(&MAPS), self.map(depth)),
            5 => format!("const {} = {};", self.random.pick(&["x", "y", "z"]), self.value(depth)),
            _ => format!("let {} = {};", self.random.pick(&FUNCTIONS), self.function(depth)),
        }
    }

    fn assigns(&mut self, depth: u64) -> String {
        let sign = self.random.pick(&["=", "+=", "-=", "*=", "|=", "^="]);
        match self.random.below(9) {
            0..=3 => format!("{} {sign} {};", self.random.pick(&INTS), self.int(depth)),
            4 => format!("{} += {};", self.random.pick(&TEXTS), self.text(depth)),
            5 => format!("{} = {};", self.random.pick(&ARRAYS), self.array(depth)),
            6 => format!("{}.{} = {};", self.random.pick(&MAPS), self.random.pick(&["k", "l", "deep"]), self.value(depth)),
            7 => format!("{} = {};", self.random.pick(&FUNCTIONS), self.function(depth)),
            _ => format!("{} = {};", self.random.pick(&VALUES), self.value(depth)),
        }
    }

    /// A call that changes a variable.
    fn changes(&mut self, depth: u64) -> String {
        let (array, map) = (self.random.pick(&ARRAYS), self.random.pick(&MAPS));
        match self.random.below(14) {
            0 => format!("{array}.push({});", self.value(depth)),
            1 => format!("{array}.pop();"),
            2 => format!("{array}.grow({});", self.value(depth)),
            3 => format!("grow({array}, {});", self.value(depth)),
            4 => format!("{}.bump();", self.random.pick(&INTS)),
            5 => format!("{map}.touch({});", self.text(1)),
            6 => format!("{map}.l = [[1], {array}]; {map}.l[0].grow({}); print({map});", self.value(1)),
            7 => format!("try {{ {array}.spoil(); }} catch (why) {{ print(why + {array}.len()); }}"),
            8 => format!("{array}.add_to({});", self.value(depth)),
            9 => format!("{array}.grow_by(|| {});", self.value(depth)),
            10 => format!("{}.tweak();", self.random.pick(&VALUES)),
            11 => format!("{array}.push({}); {array}.push(|| {array}.len());", self.function(1)),
            12 => format!("{map}.call_me = |p| {}; print({map}.call_me(3));", self.int(1)),
            _ => format!("{array}.truncate(6); {array}.reverse();"),
        }
    }

    fn branches(&mut self, depth: u64) -> String {
        let d = depth - 1;
        if self.random.one_in(3) {
            let (of, one, other) = (self.int(1), self.block(d), self.block(d));
            return format!("switch {of} {{ 0 | 2 => {one}, 3..9 => {other}, _ => {} }}", self.block(d));
        }
        format!("if {} {} else {}", self.truth(2), self.block(d), self.block(d))
    }

    fn repeats(&mut self, depth: u64) -> String {
        self.loops += 1;
        let body = self.block(depth - 1);
        self.loops -= 1;
        let count = self.random.pick(&[1, 2, 3, 5, 20, 300]);
        match self.random.below(12) {
            0..=4 => format!("for at in 0..{count} {body}"),
            5 | 6 => format!("for (item, at) in {} {{ print(item); {} }}", self.array(1), &body[1..body.len() - 1]),
            7 => format!("let w = 0; while w < {count} {{ w += 1; {} }}", &body[1..body.len() - 1]),
            8 => format!("let w = 0; do {{ w += 1; {} }} while w < {count};", &body[1..body.len() - 1]),
            9 => format!("for letter in {} {body}", self.text(1)),
            10 => format!("for key in {}.keys() {body}", self.random.pick(&MAPS)),
            _ => format!("loop {body}"),
        }
    }

    fn fails(&mut self) -> String {
        match self.random.below(10) {
            0 => format!("throw {};", self.value(1)),
            1 => "nowhere;".to_owned(),
            2 => "missing(1);".to_owned(),
            3 => format!("print(1 / ({} & 1));", self.int(1)),
            4 => format!("{}[{}] = 1;", self.random.pick(&ARRAYS), self.int(1)),
            5 => format!("try {{ throw {}; }} catch (why) {{ x = why; }}", self.value(1)),
            6 => "pull();".to_owned(),
            7 => format!("panics({});", self.int(1)),
            8 => format!("panics_within({}, {});", self.function(1), self.int(1)),
            _ => format!("print(half({}));", self.int(1)),
        }
    }

    /// Statements whose functions are called by the program.
    fn calls_back(&mut self, depth: u64) -> String {
        let (array, int) = (self.random.pick(&ARRAYS), self.random.pick(&INTS));
        match self.random.below(9) {
            0 => format!("each({}, |p| {});", self.array(1), self.closed_block(depth - 1)),
            1 => format!("each([1, 2, 3], |p| {int} += p);"),
            2 => format!("each([1, 2], |p| each({array}, |q| {{ {int} += 1; print(q); }}));"),
            3 => format!("keep({});", self.function(depth)),
            4 => format!("swallow(|| {});", self.closed_block(depth - 1)),
            5 => format!("let made = {int}; keep(|| {{ made += {int}; made }});"),
            6 => format!("keep(same({}));", self.function(depth)),
            7 => format!("try {{ each({array}, |p| {{ throw p; }}); }} catch (why) {{ print(why); }}"),
            _ => format!("print(again({}));", self.random.pick(&[1, 3, 70])),
        }
    }
}

/// Expressions.
impl Maker<'_> {
    fn int_leaf(&mut self) -> String {
        match self.random.below(3) {
            0 => self.random.pick(&["0", "1", "2", "3", "7", "-1", "100", "4096"]).to_owned(),
            _ => match self.parameters {
                None => self.random.pick(&INTS).to_owned(),
                Some([]) => "5".to_owned(),
                Some(parameters) => self.random.pick(parameters).to_owned(),
            },
        }
    }

    fn int(&mut self, depth: u64) -> String {
        let Some(d) = depth.checked_sub(1) else { return self.int_leaf() };
        match self.random.below(20) {
            0..=4 => self.int_leaf(),
            5..=9 => format!("({} {} {})", self.int(d), self.random.pick(&["+", "-", "*", "&", "|", "^"]), self.int(d)),
            10 => format!("({} {} 7)", self.int(d), self.random.pick(&["%", "/", ">>"])),
            11 => format!("{}.len()", self.array(d)),
            12 => format!("(if {} {{ {} }} else {{ {} }})", self.truth(d), self.int(d), self.int(d)),
            13 => format!("(switch {} {{ 1 => {}, _ => {} }})", self.int(d), self.int(d), self.int(d)),
            14..=16 => self.int_of_the_program(d),
            17 => format!("down({})", self.random.pick(&["3", "20"])),
            18 if self.parameters.is_none() => format!("two({}, {})", self.int(d), self.int(d)),
            _ if self.parameters.is_none() => format!("{}.call({})", self.random.pick(&FUNCTIONS), self.int(d)),
            _ => self.int_leaf(),
        }
    }

    fn int_of_the_program(&mut self, d: u64) -> String {
        match self.random.below(14) {
            0 => "sum()".to_owned(),
            1 => format!("sum({})", self.int(d)),
            2 => format!("{}.sum({}, 3)", self.int(0), self.int(d)),
            3 => format!("sum(1, {}, 3, 4)", self.int(d)),
            4 => format!("sum(1, 2, {}, 4, 5)", self.int(d)),
            5 => format!("sum(1, 2, 3, {}, 5, 6)", self.int(d)),
            6 => format!("(try_half({}) ?? 1)", self.int(d)),
            7 => format!("small({} & 255)", self.int(d)),
            8 => format!("apply({}, {})", self.function(d), self.int(d)),
            9 => format!("twice({}, {})", self.function(d), self.int(d)),
            10 => format!("by_name(\"{}\", {})", self.random.pick(&["one", "one", "down", "two"]), self.int(0)),
            11 => format!("or_else(|| {}, {})", self.int(d), self.int(d)),
            12 => format!("inside({})", self.int(0)),
            _ => self.random.pick(&["place()", "operations()", "sum(1, 2)"]).to_owned(),
        }
    }

    fn truth(&mut self, depth: u64) -> String {
        match self.random.below(5) {
            0 => self.random.pick(&["true", "false"]).to_owned(),
            1 => format!("(swallow(|| {}) && true)", self.int(depth.saturating_sub(1))),
            _ => format!("{} {} {}", self.int(depth.min(1)), self.random.pick(&["<", "<=", "==", "!=", ">"]), self.int(0)),
        }
    }

    fn text(&mut self, depth: u64) -> String {
        let Some(d) = depth.checked_sub(1) else { return self.random.pick(&["\"\"", "\"ab\"", "\"\u{e9}\""]).to_owned() };
        match self.random.below(6) {
            0 | 1 if self.parameters.is_none() => self.random.pick(&TEXTS).to_owned(),
            2 => format!("({} + {})", self.text(d), self.int(d)),
            3 => format!("join({}, {}, 'c')", self.text(d), self.int(d)),
            4 => format!("`<${{{}}}>`", self.int(d)),
            _ => self.text(0),
        }
    }

    fn array(&mut self, depth: u64) -> String {
        let Some(d) = depth.checked_sub(1) else { return "[1, 2]".to_owned() };
        match self.random.below(9) {
            0..=2 if self.parameters.is_none() => self.random.pick(&ARRAYS).to_owned(),
            3 => format!("[{}, {}, {}]", self.int(d), self.value(d), self.text(d)),
            4 => format!("ranged(0..{})", self.random.pick(&[0, 1, 5, 40])),
            5 => format!("pair({}, {})", self.value(d), self.value(d)),
            6 => format!("[3, 1, 2].map(|p| {})", self.int(d)),
            7 => format!("[{}, 2, {}].filter(|p| p > 1)", self.int(d), self.int(d)),
            _ => self.array(0),
        }
    }

    fn map(&mut self, depth: u64) -> String {
        let Some(d) = depth.checked_sub(1) else { return "#{k: 1, l: ()}".to_owned() };
        match self.random.below(5) {
            0 | 1 if self.parameters.is_none() => self.random.pick(&MAPS).to_owned(),
            2 => format!("fields(#{{k: {}, l: {}}})", self.value(d), self.int(d)),
            3 => format!("#{{k: {}, l: {}}}", self.value(d), self.array(d)),
            _ => self.map(0),
        }
    }

    /// A function of one int.
    fn function(&mut self, depth: u64) -> String {
        let Some(d) = depth.checked_sub(1) else { return "Fn(\"one\")".to_owned() };
        match self.random.below(9) {
            0..=2 if self.parameters.is_none() => format!("|p| {}", self.closed(d)),
            3 if self.parameters.is_none() => self.random.pick(&FUNCTIONS).to_owned(),
            4 => format!("Fn(\"two\").curry({})", self.int(d)),
            5 if self.parameters.is_none() => format!("kept({}, {})", self.random.pick(&[0, 1, 2]), self.function(d)),
            6 => format!("same({})", self.function(d)),
            7 if self.parameters.is_none() => format!("(|| {{ let own = {}; |p| {{ own += p; own }} }}).call()", self.int(d)),
            _ => self.random.pick(&["Fn(\"down\")", "Fn(\"one\")", "Fn(\"sum\")"]).to_owned(),
        }
    }

    /// The body of a closure.
    fn closed(&mut self, d: u64) -> String {
        match self.random.below(4) {
            0 => format!("{{ {} += p; {} }}", self.random.pick(&INTS), self.int(d)),
            1 => format!("{{ let q = p; {} += q; q }}", self.random.pick(&INTS)),
            2 => format!("p + {}", self.int(d)),
            _ => self.int(d),
        }
    }

    fn value(&mut self, depth: u64) -> String {
        let Some(d) = depth.checked_sub(1) else {
            return self.random.pick(&["()", "true", "'c'", "\"text\"", "7", "blob(3, 1)", "1..4", "2..=3"]).to_owned();
        };
        match self.random.below(12) {
            0..=3 => self.int(depth),
            4 => self.text(depth),
            5 => self.array(depth),
            6 => self.map(depth),
            7 => self.function(depth),
            8 if self.parameters.is_none() => self.random.pick(&VALUES).to_owned(),
            9 => format!("echo({})", self.value(d)),
            10 => format!("maybe({})", self.value(d)),
            _ => self.value(0),
        }
    }
}
