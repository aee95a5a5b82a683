//! The machine of commands as a Rust programmer would write it over the released files, with the port's departures put in.

mod ask;
mod change;
pub mod command;
mod entries;
pub(crate) mod kinds;
mod marks;

use crate::departures::Departure;
use crate::dump::cell_of;
use crate::ends::parts;
use crate::release::Desk;
use command::{Command, Literal, Place};
use marks::Mark;
use rhai::{calc_index, calc_offset_len, hooks, Dynamic, FnPtr, ImmutableString, Map, Scope, Union, ERR};
use std::collections::BTreeSet;

/// What the release can't do, or what would take too long to compare.
#[derive(Clone, Copy, Debug, PartialEq, Eq, PartialOrd, Ord)]
pub enum LeftOut {
    /// A loop of holders alone, on which the release's typed questions don't return.
    LoopOfHolders,
    /// A value of thousands of parts, each counted as often as it would be printed.
    LargeValue,
}

/// Why a command isn't executed.
pub enum Stop {
    Refused(String),
    LeftOut(LeftOut),
}

/// The line that answers a command.
pub type Done = Result<String, Stop>;

pub fn refused<T>(name: &str) -> Result<T, Stop> {
    Err(Stop::Refused(name.into()))
}

fn done() -> Done {
    Ok("ok".into())
}

fn line(text: impl ToString) -> Done {
    Ok(text.to_string())
}

fn fault<T>(error: &ERR) -> Result<T, Stop> {
    Err(Stop::Refused(match error {
        ERR::ErrorMismatchDataType(wanted, found, _) => format!("ErrorMismatchDataType {wanted} {found}"),
        ERR::ErrorDataRace(..) => "ErrorDataRace".into(),
        ERR::ErrorArithmetic(why, _) => format!("ErrorArithmetic {}", why.split(':').next().unwrap_or("")),
        ERR::ErrorDataTooLarge(..) => "ErrorDataTooLarge".into(),
    }))
}

/// The place of a value that a command writes to.
enum Slot {
    Hand(usize),
    Entry(String),
}

pub struct World {
    scope: Scope<'static>,
    hand: Vec<Dynamic>,
    marks: Vec<Mark>,
    desk: Desk,
}

impl Default for World {
    fn default() -> Self {
        Self { scope: Scope::new(), hand: Vec::new(), marks: Vec::new(), desk: Desk::new(true) }
    }
}

/// Parts that a value may have for it to be printed and compared, counted as often as they are printed; and bytes of its texts.
const LARGEST: i64 = 1500;

/// Takes from what is left for each part of a value, cells entered as in printing.
fn weigh(v: &Dynamic, path: &mut Vec<*const ()>, left: &mut i64) {
    *left -= 1;
    if *left < 0 {
        return;
    }
    match hooks::union(v) {
        Union::Str(text, ..) => *left -= text.len() as i64 / 8,
        Union::Blob(bytes, ..) => *left -= bytes.len() as i64 / 8,
        Union::Shared(cell, ..) => {
            let place = cell_of(v).expect("a holder");
            if let (false, Ok(content)) = (path.contains(&place), cell.try_borrow()) {
                path.push(place);
                weigh(&content, path, left);
                path.pop();
            }
        }
        _ => parts(v).into_iter().for_each(|v| weigh(v, path, left)),
    }
}

fn fit<'v>(values: impl IntoIterator<Item = &'v Dynamic>) -> Result<(), Stop> {
    let mut left = LARGEST;
    values.into_iter().for_each(|v| weigh(v, &mut Vec::new(), &mut left));
    if left < 0 {
        Err(Stop::LeftOut(LeftOut::LargeValue))
    } else {
        Ok(())
    }
}

impl World {
    /// How many values are in the hand, entries in the scope, and marks open.
    #[must_use]
    pub fn sizes(&self) -> (usize, usize, usize) {
        (self.hand.len(), self.scope.len(), self.marks.len())
    }

    /// The name of the type that is held at a hand position, if it can be determined.
    #[must_use]
    pub fn kind_at(&self, i: usize) -> &'static str {
        let held = self.hand.get(i).map(crate::ends::flat);
        held.filter(|held| !held.is_shared()).map_or("", |held| held.type_name())
    }

    /// Whether there is a holder at a hand position.
    #[must_use]
    pub fn is_holder(&self, i: usize) -> bool {
        self.hand.get(i).is_some_and(Dynamic::is_shared)
    }

    /// The departures that were put in since the last time.
    pub fn take_departures(&mut self) -> BTreeSet<Departure> {
        std::mem::take(&mut self.desk.why)
    }

    fn value(&self, i: usize) -> Result<&Dynamic, Stop> {
        self.hand.get(i).map_or_else(|| refused("NoValue"), Ok)
    }

    /// Takes this many last values out of the hand.
    fn last(&mut self, count: usize) -> Result<Vec<Dynamic>, Stop> {
        let Some(start) = self.hand.len().checked_sub(count) else { return refused("NoValue") };
        fit(&self.hand[start..])?;
        Ok(self.hand.split_off(start))
    }

    fn append(&mut self, value: Dynamic) -> Done {
        self.hand.push(value);
        done()
    }

    /// Moves a value of the hand out, for a command that then can't be refused.
    fn taken(&mut self, i: usize) -> Dynamic {
        self.hand[i].take()
    }

    fn slot(&self, place: &Place) -> Result<Slot, Stop> {
        match place {
            Place::Hand(i) => self.value(*i).map(|_| Slot::Hand(*i)),
            Place::Entry(name) => match self.scope.is_constant(name) {
                None => refused("NoEntry"),
                Some(true) => refused("ConstantEntry"),
                Some(false) => Ok(Slot::Entry(name.clone())),
            },
        }
    }

    fn place_of(&mut self, slot: &Slot) -> &mut Dynamic {
        match slot {
            Slot::Hand(i) => &mut self.hand[*i],
            Slot::Entry(name) => self.scope.get_mut(name).expect("an entry that may be written"),
        }
    }

    fn put(&mut self, literal: &Literal) -> Done {
        let value = match literal {
            Literal::Unit => Dynamic::UNIT,
            Literal::Bool(value) => Dynamic::from_bool(*value),
            Literal::Int(value) => Dynamic::from_int(*value),
            Literal::Char(value) => Dynamic::from_char(*value),
            Literal::Text(text) => Dynamic::from(text.clone()),
            Literal::Blob(bytes) => Dynamic::from_blob(bytes.clone()),
            Literal::Host(host) => kinds::host(*host),
            Literal::Range(start, end) => Dynamic::from(*start..*end),
            Literal::RangeEq(start, end) => Dynamic::from(*start..=*end),
        };
        self.append(value)
    }

    fn make_array(&mut self, count: usize) -> Done {
        let items = self.last(count)?;
        self.append(Dynamic::from_array(items))
    }

    fn make_map(&mut self, keys: &[String]) -> Done {
        let values = self.last(keys.len())?;
        let map: Map = keys.iter().map(|key| key.as_str().into()).zip(values).collect();
        self.append(Dynamic::from_map(map))
    }

    fn make_fn(&mut self, name: &str, count: usize) -> Done {
        let curry = self.last(count)?;
        self.append(FnPtr::new(ImmutableString::from(name), curry).into())
    }

    fn drop_last(&mut self) -> Done {
        if self.hand.pop().is_none() {
            return refused("NoValue");
        }
        done()
    }

    fn index(length: usize, index: i64, from_end: bool) -> Done {
        calc_index(length, index, from_end).map_or_else(|| line("none"), line)
    }

    /// Executes a command. One that is refused or left out changes nothing.
    pub fn apply(&mut self, command: &Command) -> Done {
        match command {
            Command::Put(literal) => self.put(literal),
            Command::MakeArray(count) => self.make_array(*count),
            Command::MakeMap(keys) => self.make_map(keys),
            Command::MakeFn(name, count) => self.make_fn(name, *count),
            Command::Copy(i) => {
                let value = self.value(*i)?.clone();
                self.append(value)
            }
            Command::Take(i) => {
                self.value(*i)?;
                let value = self.taken(*i);
                self.append(value)
            }
            Command::Drop => self.drop_last(),
            Command::Offset(length, start, len) => {
                let (first, count) = calc_offset_len(*length, *start, *len);
                line(format!("{first} {count}"))
            }
            Command::Index(length, index, from_end) => Self::index(*length, *index, *from_end),
            Command::Ask(..) | Command::Show(_) | Command::Debug(_) | Command::Hash(_) => self.apply_question(command),
            Command::Mark(_) | Command::Unmark(_) | Command::WriteMarked(..) | Command::ReadMarked(_) => self.apply_mark(command),
            Command::Share(_)
            | Command::Flatten(_)
            | Command::FlattenClone(_)
            | Command::Cast(..)
            | Command::MakeReadOnly(_)
            | Command::SetTag(..)
            | Command::WriteInt(..)
            | Command::Write(..)
            | Command::Binary(..)
            | Command::Assign(..)
            | Command::Scan(..)
            | Command::WriteBit(..)
            | Command::WriteField(..)
            | Command::WriteByte(..)
            | Command::WriteChar(..)
            | Command::WriteSlice(..) => self.apply_change(command),
            Command::Push(..)
            | Command::PushDynamic(..)
            | Command::PushConstant(..)
            | Command::SetEntry(..)
            | Command::SetOrPush(..)
            | Command::SetValue(..)
            | Command::Pop
            | Command::Rewind(_)
            | Command::Clear
            | Command::Len
            | Command::IsEmpty
            | Command::Contains(_)
            | Command::Search(_)
            | Command::IsConstant(_)
            | Command::Get(_)
            | Command::GetValue(..)
            | Command::GetRef(..)
            | Command::SetRef(..)
            | Command::Remove(..)
            | Command::SetAlias(..)
            | Command::Aliases(_)
            | Command::KeepVisible
            | Command::CopyScope
            | Command::Entries
            | Command::Names
            | Command::Extend(_)
            | Command::ExtendFlagged(_)
            | Command::ShowScope
            | Command::HashScope => self.apply_entry(command),
        }
    }
}
