//! Scripts of calls on a scope.

use super::Desk;
use crate::departures::Departure;
use crate::dump::{dumped, quote};
use crate::ends::meets_twice;
use crate::printed::{printed_by_rule, Form};
use crate::recipe::Step;
use rhai::{hooks, Dynamic, ExclusiveRange, FnPtr, ImmutableString, InclusiveRange, Map, Scope, Variant};
use std::fmt::Write as _;

impl Desk {
    fn typed_step<T: Variant + Clone>(&mut self, s: &mut Scope<'static>, name: &str, way: u8) {
        let text = |v: Option<Dynamic>| v.map_or_else(|| "none".to_string(), |v| dumped(&v));
        let is_shared = s.get(name).is_some_and(Dynamic::is_shared);
        match way {
            11 => self.say("get_value", text(s.get_value::<T>(name).map(Dynamic::from))),
            12 if is_shared => self.say("get_value_ref", "shared"),
            12 => self.say("get_value_ref", text(s.get_value_ref::<T>(name).map(|x| Dynamic::from(x.clone())))),
            13 if is_shared => self.say("get_value_mut", "shared"),
            13 => self.say("get_value_mut", text(s.get_value_mut::<T>(name).map(|x| Dynamic::from(x.clone())))),
            _ => {
                let _kept = if self.adapt && is_shared {
                    self.depart(Departure::LastHolder);
                    s.get(name).cloned()
                } else {
                    None
                };
                let made = s.remove::<T>(name).map(Dynamic::from);
                self.say("remove", text(made));
            }
        }
    }

    fn step(&mut self, s: &mut Scope<'static>, step: &Step) {
        match step {
            Step::Value(op, name, v) => {
                let v = self.value(v);
                match op {
                    0 => drop(s.push(name.as_str(), v)),
                    1 => drop(s.push_constant(name.as_str(), v)),
                    2 => drop(s.push_dynamic(name.as_str(), v)),
                    3 => drop(s.push_constant_dynamic(name.as_str(), v)),
                    4 => {
                        if s.is_constant(name) == Some(true) {
                            self.say("set_value", "constant");
                        } else {
                            s.set_value(name.as_str(), v);
                        }
                    }
                    5 => drop(s.set_or_push(name.as_str(), v)),
                    _ => match s.get_mut(name) {
                        Some(place) => *place = v,
                        None => self.say("get_mut", "none"),
                    },
                }
            }
            Step::Plain(7, _) => {
                if s.is_empty() {
                    self.say("pop", "empty");
                } else {
                    s.pop();
                }
            }
            Step::Plain(9, _) => drop(s.clear()),
            Step::Plain(16, _) => *s = s.clone_visible(),
            Step::Plain(17, _) => *s = s.clone(),
            Step::Plain(_, name) => {
                self.say("contains", s.contains(name));
                self.say("search", hooks::search(s, name).map_or_else(|| "none".into(), |n| n.to_string()));
                self.say("is_constant", s.is_constant(name).map_or_else(|| "none".into(), |n| n.to_string()));
                self.say("get", s.get(name).map_or_else(|| "none".into(), dumped));
            }
            Step::Typed(way, name, kind) => match kind {
                0 => self.typed_step::<()>(s, name, *way),
                1 => self.typed_step::<bool>(s, name, *way),
                2 => self.typed_step::<char>(s, name, *way),
                3 => self.typed_step::<i64>(s, name, *way),
                4 => self.typed_step::<u8>(s, name, *way),
                5 => self.typed_step::<u16>(s, name, *way),
                6 => self.typed_step::<u32>(s, name, *way),
                7 => self.typed_step::<u64>(s, name, *way),
                8 => self.typed_step::<u128>(s, name, *way),
                9 => self.typed_step::<i8>(s, name, *way),
                10 => self.typed_step::<i16>(s, name, *way),
                11 => self.typed_step::<i32>(s, name, *way),
                12 => self.typed_step::<i128>(s, name, *way),
                13 => self.typed_step::<String>(s, name, *way),
                14 => self.typed_step::<ImmutableString>(s, name, *way),
                15 => self.typed_step::<rhai::Array>(s, name, *way),
                16 => self.typed_step::<rhai::Blob>(s, name, *way),
                17 => self.typed_step::<Map>(s, name, *way),
                18 => self.typed_step::<FnPtr>(s, name, *way),
                19 => self.typed_step::<ExclusiveRange>(s, name, *way),
                20 => self.typed_step::<InclusiveRange>(s, name, *way),
                _ => self.typed_step::<Dynamic>(s, name, *way),
            },
            Step::Alias(name, alias) => drop(s.set_alias(name.as_str(), alias.as_str())),
            Step::Rewind(n) => drop(s.rewind(*n as usize)),
            Step::Extend(items) => {
                let items: Vec<_> = items.iter().map(|(n, v)| (n.clone(), self.value(v))).collect();
                s.extend(items);
            }
            Step::Flagged(items) => {
                let items: Vec<_> = items.iter().map(|(n, f, v)| (n.clone(), *f, self.value(v))).collect();
                s.extend(items);
            }
        }
    }

    pub(super) fn script(&mut self, steps: &[Step]) {
        let mut s = Scope::new();
        for step in steps {
            self.step(&mut s, step);
        }
        self.say("len", s.len());
        self.say("empty", s.is_empty());
        for (n, v, a) in &s {
            self.say_entry("entry", n, v, a);
        }
        for (n, c, v) in s.iter() {
            let mut out = String::from(if c { "const " } else { "" });
            quote(n, &mut out);
            self.say("iter", format!("{out} {}", dumped(&v)));
        }
        for (n, c, v) in s.iter_raw() {
            let mut out = String::from(if c { "const " } else { "" });
            quote(n, &mut out);
            self.say("raw", format!("{out} {}", dumped(v)));
        }
        let shown = if self.adapt { self.scope_text(&s) } else { s.to_string() };
        self.say_quoted("shown", &shown);
        for (n, v, a) in s {
            self.say_entry("moved", &n, &v, &a);
        }
    }

    /// Reports an entry: its name, value and aliases.
    fn say_entry(&mut self, key: &str, name: &str, v: &Dynamic, aliases: &[ImmutableString]) {
        let mut out = String::new();
        quote(name, &mut out);
        let _ = write!(out, " {}", dumped(v));
        for alias in aliases {
            out.push(' ');
            quote(alias, &mut out);
        }
        self.say(key, out);
    }

    /// The text of a scope by the port's rule.
    pub(crate) fn scope_text(&mut self, s: &Scope) -> String {
        let mut ruled = String::new();
        let entries: Vec<_> = s.iter_raw().collect();
        for (i, (name, is_constant, v)) in entries.iter().rev().enumerate() {
            let constant = if *is_constant { "const " } else { "" };
            let _ = writeln!(ruled, "[{}] {constant}{name} = {}", i + 1, printed_by_rule(v, Form::Debug));
        }
        let twice = entries.iter().any(|(_, _, v)| meets_twice(v, &mut Vec::new()));
        self.text_by_rule(s.to_string(), ruled, twice)
    }
}
