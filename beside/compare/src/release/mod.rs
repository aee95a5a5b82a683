//! The release's answers to a recipe: as they are, or with the port's departures put in (`adapt`).

pub(crate) mod casts;
mod holds;
mod makes;
mod moves;
pub(crate) mod operators;
pub(crate) mod parts;
mod questions;
mod scopes;

pub use operators::token;

use self::parts::Piece;
use crate::departures::Departure;
use crate::dump::{dumped, quote};
use crate::ends::{end, is_chain, End};
use crate::printed::unescaped;
use crate::recipe::{Call, Recipe, V};
use rhai::{calc_index, calc_offset_len, hooks, AccessMode, Dynamic, FnPtr, ImmutableString, Map, Union, ERR};
use std::collections::BTreeSet;
use std::fmt::Write as _;
use std::panic::{catch_unwind, AssertUnwindSafe};

pub(crate) struct Desk {
    cells: Vec<Dynamic>,
    out: String,
    /// The last answer that was kept.
    last: Dynamic,
    adapt: bool,
    pub(crate) why: BTreeSet<Departure>,
}

pub(crate) fn guarded<R>(f: impl FnOnce() -> R) -> Option<R> {
    catch_unwind(AssertUnwindSafe(f)).ok()
}

impl Desk {
    pub(crate) fn new(adapt: bool) -> Self {
        Self { cells: Vec::new(), out: String::new(), last: Dynamic::UNIT, adapt, why: BTreeSet::new() }
    }

    /// The text by the port's rule, where it differs from the release's in a known way.
    pub(crate) fn text_by_rule(&mut self, raw: String, ruled: String, twice: bool) -> String {
        if raw == ruled {
            return raw;
        }
        if unescaped(&raw) == ruled {
            self.depart(Departure::Escapes);
        } else if twice {
            self.depart(Departure::PrintedTwice);
        } else {
            return raw;
        }
        ruled
    }

    fn value(&mut self, v: &V) -> Dynamic {
        match v {
            V::Unit => Dynamic::UNIT,
            V::Bool(b) => Dynamic::from_bool(*b),
            V::Int(n) => Dynamic::from_int(*n),
            V::Char(c) => Dynamic::from_char(*c),
            V::Text(s) => Dynamic::from(s.clone()),
            V::Blob(b) => Dynamic::from_blob(b.clone()),
            V::Array(a) => Dynamic::from_array(a.iter().map(|v| self.value(v)).collect()),
            V::Map(m) => {
                let mut map = Map::new();
                for (k, v) in m {
                    let v = self.value(v);
                    map.insert(k.as_str().into(), v);
                }
                Dynamic::from_map(map)
            }
            V::Fn(name, a) => {
                let curry = a.iter().map(|v| self.value(v)).collect();
                FnPtr::new(ImmutableString::from(name.as_str()), curry).into()
            }
            V::Host(kind, n) => match kind {
                0 => Dynamic::from(*n as u8),
                1 => Dynamic::from(*n as u16),
                2 => Dynamic::from(*n as u32),
                3 => Dynamic::from(*n as u64),
                4 => Dynamic::from(*n),
                5 => Dynamic::from(*n as i8),
                6 => Dynamic::from(*n as i16),
                7 => Dynamic::from(*n as i32),
                _ => Dynamic::from(*n as i128),
            },
            V::Range(a, b) => Dynamic::from(*a..*b),
            V::RangeEq(a, b) => Dynamic::from(*a..=*b),
            V::Holder(v) => {
                let content = self.value(v);
                let holder: Dynamic = rhai::Shared::new(rhai::Locked::new(content)).into();
                self.cells.push(holder.clone());
                holder
            }
            V::Again(k) => self.again(*k),
            V::Tag(n, v) => {
                let mut v = self.value(v);
                v.set_tag(*n);
                v
            }
            V::Ro(v) => {
                let mut v = self.value(v);
                hooks::set_own_mode(&mut v, AccessMode::ReadOnly);
                v
            }
        }
    }

    fn again(&self, k: u8) -> Dynamic {
        self.cells.get(k as usize).map_or(Dynamic::UNIT, Clone::clone)
    }

    fn say(&mut self, key: &str, text: impl std::fmt::Display) {
        let _ = writeln!(self.out, "{key}={text}");
    }
    fn say_quoted(&mut self, key: &str, text: &str) {
        let _ = write!(self.out, "{key}=");
        quote(text, &mut self.out);
        self.out.push('\n');
    }
    fn say_value(&mut self, key: &str, v: &Dynamic) {
        self.say(key, dumped(v));
    }
    /// Reports a value, and keeps it to be printed again.
    fn say_kept(&mut self, key: &str, v: Dynamic) {
        self.say_value(key, &v);
        self.last = v;
    }
    /// Reports what a closure returns, or that it panics.
    fn ask<T: std::fmt::Display>(&mut self, key: &str, f: impl FnOnce() -> T) {
        match guarded(f) {
            Some(t) => self.say(key, t),
            None => self.say(key, "PANIC"),
        }
    }
    pub(crate) fn depart(&mut self, why: Departure) {
        self.why.insert(why);
    }

    fn say_fault(&mut self, e: &ERR) {
        match e {
            ERR::ErrorMismatchDataType(a, b, pos) => {
                self.say("fault", "ErrorMismatchDataType");
                self.say("wanted", a);
                self.say("found", b);
                self.say("pos", format!("{pos:?}").replace("none", "0:0"));
            }
            ERR::ErrorDataRace(..) => self.say("fault", "ErrorDataRace"),
            ERR::ErrorArithmetic(s, _) => self.say("fault", s.split(':').next().unwrap().to_string()),
            ERR::ErrorDataTooLarge(s, _) => self.say("fault", if s.contains("string") { "Text" } else { "Items" }),
        }
    }

    /// A value for a typed call by the port's rule: the innermost holder in the place of a chain. `None` where the chain is stuck.
    pub(crate) fn inner(&mut self, v: &Dynamic) -> Option<Dynamic> {
        match end(v) {
            End::Own => Some(v.clone()),
            End::Held(h) => {
                if is_chain(v) {
                    self.depart(Departure::FirstCell);
                }
                Some(h)
            }
            End::Stuck(_) => {
                self.depart(Departure::BorrowedQuestion);
                None
            }
        }
    }
}

/// The answers to a recipe, and the departures that were put in, if requested.
pub fn answer(r: &Recipe, adapt: bool) -> (String, BTreeSet<Departure>) {
    let mut desk = Desk::new(adapt);
    let mut x = desk.value(&r.x);
    let mut y = desk.value(&r.y);
    for (k, v) in &r.writes {
        let mut holder = desk.again(*k);
        let v = desk.value(v);
        if let Some(mut place) = holder.write_lock::<Dynamic>() {
            *place = v;
        };
    }
    let marked = match desk.cells.get(r.mark as usize).map(|h| hooks::union(h)) {
        Some(Union::Shared(cell, ..)) => Some(cell.clone()),
        _ => None,
    };
    let mark = marked.as_ref().map(|c| c.borrow_mut());
    // The steps of a script name cells, so that these are kept.
    if !r.keep && !matches!(r.call, Call::Scope(_)) {
        desk.cells.clear();
    }
    match &r.call {
        Call::Operate(t, a, b) => desk.operate(*t, *a, *b, &mut x, &mut y),
        Call::Assign(t, via, a, b) => desk.assign(*t, *via, *a, *b, &mut x, &mut y),
        Call::Show => desk.show(&x, &y),
        Call::Ask => desk.questions(&mut x),
        Call::Cast(kind, way) => desk.cast_call(&mut x, &y, *kind, *way),
        Call::Move(way, tag) => desk.move_call(&mut x, *way, *tag),
        Call::Offsets(n, a, b, flag) => {
            let (first, count) = calc_offset_len(*n as usize, *a, *b);
            desk.say("offset", first);
            desk.say("count", count);
            let found = calc_index(*n as usize, *a, *flag);
            desk.say("index", found.map_or_else(|| "none".into(), |n| n.to_string()));
        }
        Call::WriteBack(kind, first, second, exclusive) => {
            let piece = Piece { kind: *kind, first: *first, second: *second, exclusive: *exclusive };
            desk.write_back(&mut x, &mut y, piece);
        }
        Call::Target(how, way, kind, first, second, exclusive) => {
            let piece = Piece { kind: *kind, first: *first, second: *second, exclusive: *exclusive };
            desk.target(&mut x, &mut y, *how, *way, piece);
        }
        Call::Scope(steps) => desk.script(steps),
        Call::Write(way, text) => desk.write_call(&mut x, &mut y, *way, text),
        Call::Make(kind, way) => desk.make_call(&x, *kind, *way),
        Call::Hold(way, int) => desk.hold_call(&mut x, &mut y, *way, *int),
    }
    desk.say_value("x", &x);
    desk.say_value("y", &y);
    if r.keep {
        for k in 0..desk.cells.len() {
            let v = desk.cells[k].clone();
            desk.say_value("cell", &v);
        }
        // The contents get new tags, which identify the cells of holders.
        for (k, holder) in desk.cells.iter().enumerate() {
            let Union::Shared(cell, ..) = hooks::union(holder) else { unreachable!() };
            if let Ok(mut content) = cell.try_borrow_mut() {
                content.set_tag(5001 + k as i32);
            };
        }
        desk.say_value("x again", &x);
        desk.say_value("y again", &y);
        let last = std::mem::take(&mut desk.last);
        desk.say_value("last", &last);
    }
    drop(mark);
    (desk.out, desk.why)
}
