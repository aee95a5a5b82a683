//! Differences between the release and the port, by their names in docs/PORTING.md.

use std::collections::{BTreeMap, BTreeSet};

macro_rules! departures {
    ($($(#[doc = $text:literal])* $variant:ident $name:literal $keys:expr;)*) => {
        #[derive(Clone, Copy, Debug, PartialEq, Eq, PartialOrd, Ord)]
        pub enum Departure { $($(#[doc = $text])* $variant),* }

        impl Departure {
            pub const ALL: &'static [Departure] = &[$(Departure::$variant),*];

            /// The name before the row in docs/PORTING.md.
            #[must_use]
            pub const fn name(self) -> &'static str {
                match self { $(Departure::$variant => $name),* }
            }

            /// The keys of the lines of answers in which it can show; most departures can show in any line.
            const fn keys(self) -> &'static [&'static str] {
                match self { $(Departure::$variant => &$keys),* }
            }
        }
    };
}

departures! {
    /// A typed question, a cast or a typed write panics on a borrowed cell.
    BorrowedQuestion "borrowed_question" [];
    /// `is` of a shared value does so too.
    BorrowedIs "borrowed_is" ["is"];
    /// Look-up of a binary operator panics on a borrowed cell.
    BorrowedLookUp "borrowed_lookup" [];
    /// A text's assignment by a text panics on two holders of one cell.
    OneCell "one_cell" [];
    /// Typed calls of a shared value look at its first cell alone.
    FirstCell "first_cell" [];
    /// `flatten` of the last holder takes the content out, its modes kept.
    LastHolder "last_holder" [];
    /// `into_typed_array` of a shared array reads its items by locks.
    TypedArray "typed_array" [];
    /// `into_typed_array` of a shared blob reads what isn't there.
    SharedBlob "shared_blob" [];
    /// A holder that is reached twice may print `<shared>`.
    PrintedTwice "printed_twice" ["display", "debug", "shown"];
    /// `is_hashable` is false where a holder is reached twice.
    HashableTwice "hashable_twice" ["hashable", "hash", "hash y", "same_hash"];
    /// `Debug` escapes characters past U+007F.
    Escapes "escapes" ["display", "debug", "shown"];
    /// `==` of the two ranges goes by `Equals`.
    RangeEquality "range_equality" [];
    /// `blob += char` is tested as one byte more.
    BlobCharacter "blob_character" [];
    /// Some assignments replace the whole value, its tag and mode too.
    WholeValue "whole_value" [];
    /// The name in a mismatch on a shared value is that of the `Rc`.
    RcName "rc_name" [];
    /// An operand that is taken is unit after an error, and an item is pushed before the size is tested, which counts nested items too.
    TakenOperand "taken_operand" [];
    /// Host numbers of other types but of the same bytes have one hash.
    HashBytes "hash_bytes" ["same_hash"];
}

/// The key of a line of answers.
#[must_use]
pub fn key(line: &str) -> &str {
    line.split('=').next().unwrap_or("")
}

/// Which of the departures that were put in can explain a difference in a line.
fn reasons(why: &BTreeSet<Departure>, key: &str) -> BTreeSet<Departure> {
    let named: BTreeSet<_> = why.iter().copied().filter(|departure| departure.keys().contains(&key)).collect();
    let others: BTreeSet<_> = why.iter().copied().filter(|departure| departure.keys().is_empty()).collect();
    [named, others].into_iter().find(|found| !found.is_empty()).unwrap_or_else(|| why.clone())
}

/// The departures that were put in and show: each alone explains a difference between two texts of answers.
#[must_use]
pub fn shown(why: &BTreeSet<Departure>, raw: &str, ruled: &str) -> BTreeSet<Departure> {
    let (mut raw, mut ruled) = (raw.lines(), ruled.lines());
    let mut met = BTreeSet::new();
    loop {
        let (a, b) = (raw.next(), ruled.next());
        let Some(line) = b.or(a) else { return met };
        if a != b {
            let reasons = reasons(why, key(line));
            if let (Some(reason), 1) = (reasons.first(), reasons.len()) {
                met.insert(*reason);
            }
        }
    }
}

/// How often each departure was met.
#[derive(Default)]
pub struct Tally(pub BTreeMap<Departure, u64>);

impl Tally {
    pub fn add(&mut self, departure: Departure) {
        *self.0.entry(departure).or_default() += 1;
    }

    pub fn join(&mut self, other: &Tally) {
        for (departure, count) in &other.0 {
            *self.0.entry(*departure).or_default() += count;
        }
    }

    /// Prints a line for each departure; returns how many were met fewer times than that.
    pub fn report(&self, least: u64) -> usize {
        let mut seldom = 0;
        for departure in Departure::ALL {
            let count = self.0.get(departure).copied().unwrap_or_default();
            let too_few = count < least;
            seldom += usize::from(too_few);
            println!("  departure {}: {count}{}", departure.name(), if too_few { ", TOO SELDOM" } else { "" });
        }
        seldom
    }
}

/// The departures whose name no row of docs/PORTING.md begins with.
#[must_use]
pub fn unlisted(page: &str) -> Vec<&'static str> {
    let names = Departure::ALL.iter().map(|departure| departure.name());
    names.filter(|name| !page.contains(&format!("| `{name}`: "))).collect()
}

/// The names before rows of docs/PORTING.md that no departure has.
#[must_use]
pub fn unknown(page: &str) -> Vec<&str> {
    let rows = page.lines().filter_map(|line| line.strip_prefix("| `")?.split_once("`: "));
    let names = rows.map(|(name, _)| name).filter(|name| name.bytes().all(|byte| byte.is_ascii_lowercase() || byte == b'_'));
    names.filter(|name| Departure::ALL.iter().all(|departure| departure.name() != *name)).collect()
}
