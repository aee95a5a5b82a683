//! Commands that report on a value.

use super::command::{Command, Kind, Question};
use super::kinds::{for_kind, Id, IsOf};
use super::{done, fit, line, refused, Done, Stop, World};
use crate::departures::Departure;
use crate::ends::{end, meets_twice, End};
use crate::hash;
use crate::printed::{hashable_by_rule, printed_by_rule, Form};
use rhai::{hooks, Dynamic};

/// The kind of what can't be looked into.
pub const SHARED: Kind = Kind(22);

fn mismatch<T>(name: &str) -> Result<T, Stop> {
    Err(Stop::Refused(format!("Mismatch {name}")))
}

impl World {
    pub(super) fn text(&mut self, v: &Dynamic, form: Form) -> String {
        let raw = if form == Form::Debug { format!("{v:?}") } else { v.to_string() };
        self.desk.text_by_rule(raw, printed_by_rule(v, form), meets_twice(v, &mut Vec::new()))
    }

    pub(super) fn hashable(&mut self, v: &Dynamic) -> bool {
        let by_rule = hashable_by_rule(v, &mut Vec::new());
        let raw = hooks::is_hashable(v);
        if raw != by_rule && meets_twice(v, &mut Vec::new()) {
            self.desk.depart(Departure::HashableTwice);
            return by_rule;
        }
        raw
    }

    /// The name of the type that is held.
    pub(super) fn type_name(&mut self, v: &Dynamic) -> &'static str {
        if let End::Stuck(_) = end(v) {
            self.desk.depart(Departure::BorrowedQuestion);
            return "<shared>";
        }
        v.type_name()
    }

    pub(super) fn refuse_type<T>(&mut self, v: &Dynamic) -> Result<T, Stop> {
        let name = self.type_name(v);
        mismatch(name)
    }

    fn is_held(&mut self, v: &Dynamic, kind: Kind) -> bool {
        if let End::Stuck(_) = end(v) {
            self.desk.depart(Departure::BorrowedQuestion);
            return kind == SHARED;
        }
        for_kind(kind, Id).is_some_and(|id| v.type_id() == id)
    }

    fn is_of(&mut self, v: &Dynamic, kind: Kind) -> bool {
        for_kind(kind, IsOf(v)).is_some_and(|is| {
            is.unwrap_or_else(|| {
                self.desk.depart(Departure::BorrowedIs);
                false
            })
        })
    }

    /// The answer to a typed question about the held value.
    fn typed<T>(&mut self, v: &Dynamic, ask: impl FnOnce(&Dynamic) -> Result<T, &'static str>) -> Result<T, Stop> {
        let Some(inner) = self.desk.inner(v) else { return mismatch("<shared>") };
        match ask(&inner) {
            Ok(answer) => Ok(answer),
            Err(_) if v.is_shared() => {
                self.desk.depart(Departure::RcName);
                mismatch(inner.type_name())
            }
            Err(name) => mismatch(name),
        }
    }

    fn ask(&mut self, v: &Dynamic, question: Question) -> Done {
        match question {
            Question::Tag => line(v.tag()),
            Question::Variant => line(v.is_variant()),
            Question::Shared => line(v.is_shared()),
            Question::ReadOnly => line(v.is_read_only()),
            Question::Locked => line(v.is_locked()),
            Question::TypeName => line(self.type_name(v)),
            Question::Held(kind) => line(self.is_held(v, kind)),
            Question::Hashable => {
                fit([v])?;
                line(self.hashable(v))
            }
            Question::Is(kind) => line(self.is_of(v, kind)),
            Question::Unit => self.typed(v, Dynamic::as_unit).and_then(|()| done()),
            Question::Int => self.typed(v, Dynamic::as_int).and_then(line),
            Question::Bool => self.typed(v, Dynamic::as_bool).and_then(line),
            Question::Char => self.typed(v, Dynamic::as_char).and_then(line),
        }
    }

    fn hash(&mut self, v: &Dynamic) -> Done {
        if !self.hashable(v) {
            return refused("NotHashable");
        }
        line(hash::of_value(v))
    }

    pub(super) fn apply_question(&mut self, command: &Command) -> Done {
        let (Command::Ask(i, _) | Command::Show(i) | Command::Debug(i) | Command::Hash(i)) = command else {
            unreachable!("no question")
        };
        let v = self.value(*i)?.clone();
        // A clone's own modes are lost, which questions look at.
        if let Command::Ask(_, question) = command {
            let own = std::mem::take(&mut self.hand[*i]);
            let answer = self.ask(&own, *question);
            self.hand[*i] = own;
            return answer;
        }
        fit([&v])?;
        match command {
            Command::Show(_) => line(self.text(&v, Form::Display)),
            Command::Debug(_) => line(self.text(&v, Form::Debug)),
            _ => self.hash(&v),
        }
    }
}
