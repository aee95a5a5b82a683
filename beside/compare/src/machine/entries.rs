//! Commands on the scope and its entries.

use super::command::{Command, Kind};
use super::kinds::{for_kind, CastOf, RefOf, RemovalOf, ValueOf};
use super::{done, fit, line, refused, Done, Stop, World};
use crate::departures::Departure;
use crate::dump::dumped;
use crate::ends::{end, flat, is_chain, is_last, End};
use crate::hash;
use rhai::{hooks, Dynamic};

fn none() -> Done {
    line("none")
}

impl World {
    /// The value of the last entry of a name.
    fn entry(&self, name: &str) -> Result<&Dynamic, Stop> {
        self.scope.get(name).map_or_else(|| refused("NoEntry"), Ok)
    }

    fn set(&mut self, name: &str, i: usize) -> Done {
        self.value(i)?;
        match self.scope.is_constant(name) {
            None => return refused("NoEntry"),
            Some(true) => return refused("ConstantEntry"),
            Some(false) => (),
        }
        *self.scope.get_mut(name).expect("an entry that may be written") = self.hand[i].take();
        done()
    }

    fn set_value(&mut self, name: &str, i: usize) -> Done {
        self.value(i)?;
        if self.scope.is_constant(name) == Some(true) {
            return refused("ConstantEntry");
        }
        let value = self.taken(i);
        self.scope.set_value(name, value);
        done()
    }

    /// What the value of an entry is as one of a kind, copied without its holders.
    fn get_value(&mut self, name: &str, kind: Kind) -> Done {
        let v = self.entry(name)?.clone();
        let raw = for_kind(kind, ValueOf(&self.scope, name)).flatten();
        let ruled = for_kind(kind, CastOf(&flat(&v))).flatten();
        let mut made = raw;
        if made.as_ref().map(dumped) != ruled.as_ref().map(dumped) && v.is_shared() {
            let stuck = matches!(end(&v), End::Stuck(_));
            self.desk.depart(if stuck { Departure::BorrowedQuestion } else { Departure::FirstCell });
            made = ruled;
        }
        made.map_or_else(none, |made| self.append(made))
    }

    fn get_ref(&mut self, name: &str, kind: Kind) -> Done {
        if self.entry(name)?.is_shared() {
            return refused("SharedEntry");
        }
        let made = for_kind(kind, RefOf(&self.scope, name)).flatten();
        made.map_or_else(none, |made| self.append(made))
    }

    fn set_ref(&mut self, name: &str, n: i64) -> Done {
        if self.entry(name)?.is_shared() {
            return refused("SharedEntry");
        }
        match self.scope.get_value_mut::<i64>(name) {
            Some(int) => {
                *int = n;
                done()
            }
            None => none(),
        }
    }

    /// Removes an entry. For a holder returns a copy of the held value, where the release takes the content of a last holder.
    fn remove(&mut self, name: &str, kind: Kind) -> Done {
        let v = self.entry(name)?.clone();
        if !v.is_shared() {
            let made = match for_kind(kind, RemovalOf(&mut self.scope, name)) {
                Some(made) => made,
                None => {
                    drop(self.scope.remove::<Dynamic>(name));
                    None
                }
            };
            return made.map_or_else(none, |made| self.append(made));
        }
        let own = self.scope.remove::<Dynamic>(name);
        drop(own);
        if is_last(&v) {
            self.desk.depart(Departure::LastHolder);
        }
        if is_chain(&v) {
            self.desk.depart(Departure::FirstCell);
        }
        if matches!(end(&v), End::Stuck(_)) {
            self.desk.depart(Departure::BorrowedQuestion);
        }
        let made = for_kind(kind, CastOf(&flat(&v))).flatten();
        made.map_or_else(none, |made| self.append(made))
    }

    fn aliases(&self, name: &str) -> Done {
        let mut text = None;
        for (entry, _, aliases) in &self.scope {
            if entry == name {
                text = Some(aliases.iter().map(|alias| format!("{alias}\n")).collect::<String>());
            }
        }
        text.map_or_else(|| refused("NoEntry"), line)
    }

    fn names(&self) -> Done {
        let entries =
            self.scope.iter_raw().map(|(name, constant, _)| format!("{}{name}\n", if constant { "const " } else { "" }));
        line(entries.collect::<String>())
    }

    fn entries(&mut self) -> Done {
        let values: Vec<_> = self.scope.iter().map(|(_, _, value)| value).collect();
        self.hand.extend(values);
        done()
    }

    fn extend(&mut self, names: &[(String, bool)]) -> Done {
        let values = self.last(names.len())?;
        self.scope.extend(names.iter().zip(values).map(|((name, constant), value)| (name.as_str(), *constant, value)));
        done()
    }

    fn extend_plain(&mut self, names: &[String]) -> Done {
        let values = self.last(names.len())?;
        self.scope.extend(names.iter().map(String::as_str).zip(values));
        done()
    }

    fn show_scope(&mut self) -> Done {
        fit(self.scope.iter_raw().map(|(_, _, v)| v))?;
        let scope = std::mem::take(&mut self.scope);
        let text = self.desk.scope_text(&scope);
        self.scope = scope;
        line(text)
    }

    fn hash_scope(&mut self) -> Done {
        fit(self.scope.iter_raw().map(|(_, _, v)| v))?;
        let scope = std::mem::take(&mut self.scope);
        let hashable = scope.iter_raw().all(|(_, _, v)| self.hashable(v));
        let bytes = hashable.then(|| hash::of_scope(&scope));
        self.scope = scope;
        bytes.map_or_else(|| refused("NotHashable"), line)
    }

    pub(super) fn apply_entry(&mut self, command: &Command) -> Done {
        match command {
            Command::Push(_, i) | Command::PushDynamic(_, i) | Command::PushConstant(_, i) | Command::SetOrPush(_, i) => {
                self.value(*i)?;
                let value = self.taken(*i);
                self.push(command, value)
            }
            Command::SetEntry(name, i) => self.set(name, *i),
            Command::SetValue(name, i) => self.set_value(name, *i),
            Command::Pop if self.scope.is_empty() => refused("EmptyScope"),
            Command::Contains(name) => line(self.scope.contains(name)),
            Command::Len => line(self.scope.len()),
            Command::IsEmpty => line(self.scope.is_empty()),
            Command::Search(name) => hooks::search(&self.scope, name).map_or_else(none, line),
            Command::IsConstant(name) => self.scope.is_constant(name).map_or_else(none, line),
            Command::Get(name) => {
                let value = self.entry(name)?.clone();
                self.append(value)
            }
            Command::GetValue(name, kind) => self.get_value(name, *kind),
            Command::GetRef(name, kind) => self.get_ref(name, *kind),
            Command::SetRef(name, n) => self.set_ref(name, *n),
            Command::Remove(name, kind) => self.remove(name, *kind),
            Command::Aliases(name) => self.aliases(name),
            Command::Entries => self.entries(),
            Command::Names => self.names(),
            Command::Extend(names) => self.extend_plain(names),
            Command::ExtendFlagged(names) => self.extend(names),
            Command::ShowScope => self.show_scope(),
            Command::HashScope => self.hash_scope(),
            _ => self.apply_whole(command),
        }
    }

    fn push(&mut self, command: &Command, value: Dynamic) -> Done {
        match command {
            Command::Push(name, _) => drop(self.scope.push(name.as_str(), value)),
            Command::PushDynamic(name, _) => drop(self.scope.push_dynamic(name.as_str(), value)),
            Command::PushConstant(name, _) => drop(self.scope.push_constant(name.as_str(), value)),
            Command::SetOrPush(name, _) => drop(self.scope.set_or_push(name.as_str(), value)),
            _ => unreachable!("no push"),
        }
        done()
    }

    fn apply_whole(&mut self, command: &Command) -> Done {
        match command {
            Command::Pop => drop(self.scope.pop()),
            Command::Rewind(count) => drop(self.scope.rewind(*count)),
            Command::Clear => drop(self.scope.clear()),
            Command::SetAlias(name, alias) => drop(self.scope.set_alias(name.as_str(), alias.as_str())),
            Command::KeepVisible => self.scope = self.scope.clone_visible(),
            Command::CopyScope => self.scope = self.scope.clone(),
            _ => unreachable!("no command on the scope"),
        }
        done()
    }
}
