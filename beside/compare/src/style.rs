//! The style of a world's commands: names, and how many values, entries and marks.

use crate::dice::Dice;

/// What the commands of a world are mostly about.
#[derive(Clone, Copy, Debug, PartialEq, Eq, PartialOrd, Ord)]
pub enum Theme {
    /// All kinds of commands, over few names.
    Plain,
    /// Two hundred names and more, and as many entries.
    Wide,
    /// Many marks, which are released in any order.
    Marked,
    /// Names and keys that begin alike, texts of lengths at which they are compared in another way.
    Alike,
}

impl Theme {
    /// Which words say how often each was taken.
    #[must_use]
    pub const fn name(self) -> &'static str {
        match self {
            Theme::Plain => "plain",
            Theme::Wide => "wide",
            Theme::Marked => "marked",
            Theme::Alike => "alike",
        }
    }
}

pub struct Style {
    pub theme: Theme,
    pub names: Vec<String>,
    /// From how many values in the hand, and entries, on some are removed again.
    pub values: usize,
    pub entries: usize,
    /// The least number of commands, and how many more there may be.
    pub commands: (usize, u64),
}

/// Names of many lengths; most have the same end as the others, and half of them the same beginning.
fn wide_names(d: &mut Dice) -> Vec<String> {
    let count = 200 + d.below(60);
    let front = d.pick(&["", "name_"]);
    let end = d.pick(&["", "_end", "_of_this_name", "_by_which_all_of_the_names_end"]);
    (0..count).map(|i| if i % 8 == 0 { format!("n{i}") } else { format!("{front}{i}{end}") }).collect()
}

/// Names of which each begins as the next one does, or differs from it in one place.
fn alike_names() -> Vec<String> {
    const LONG: &str = "begins_as_others_do_and_goes_on_and_on_for_a_while_until_its_end";
    let lengths = [1, 2, 3, 4, 7, 8, 9, 15, 16, 17, 23, 24, 25, 31, 32, 33, 63, 64];
    let fronts = lengths.iter().map(|len| LONG[..*len].to_string());
    let others = [8, 16, 24, 32].iter().flat_map(|len| [format!("{}x", &LONG[..len - 1]), format!("x{}", &LONG[1..*len])]);
    fronts.chain(others).collect()
}

impl Style {
    pub fn new(d: &mut Dice) -> Self {
        let few = || ["x", "y", "z", "p", "long_name_of_a_variable"].map(String::from).to_vec();
        match d.below(16) {
            0..=9 => Self { theme: Theme::Plain, names: few(), values: 24, entries: 24, commands: (20, 160) },
            10 | 11 => Self { theme: Theme::Wide, names: wide_names(d), values: 48, entries: 420, commands: (400, 600) },
            12 | 13 => Self { theme: Theme::Marked, names: few(), values: 24, entries: 24, commands: (60, 160) },
            _ => Self { theme: Theme::Alike, names: alike_names(), values: 24, entries: 48, commands: (60, 240) },
        }
    }
}
