//! Texts and questions.

use super::{guarded, Desk};
use crate::departures::Departure;
use crate::dump::{dumped, dumped_items, dumped_map, quote};
use crate::ends::{end, has_host, meets_twice, End};
use crate::hash;
use crate::printed::{hashable_by_rule, printed_by_rule, Form};
use rhai::{hooks, Dynamic};
use std::hash::{Hash, Hasher};

impl Desk {
    pub(super) fn show(&mut self, x: &Dynamic, y: &Dynamic) {
        if self.adapt {
            for (key, form, raw) in [("display", Form::Display, x.to_string()), ("debug", Form::Debug, format!("{x:?}"))] {
                let text = self.text_by_rule(raw, printed_by_rule(x, form), meets_twice(x, &mut Vec::new()));
                self.say_quoted(key, &text);
            }
            let is = hashable_by_rule(x, &mut Vec::new());
            for v in [x, y] {
                if hashable_by_rule(v, &mut Vec::new()) != hooks::is_hashable(v) && meets_twice(v, &mut Vec::new()) {
                    self.depart(Departure::HashableTwice);
                }
            }
            self.say("hashable", is);
            match end(x) {
                End::Stuck(_) => {
                    self.depart(Departure::BorrowedQuestion);
                    self.say("type_name", "<shared>");
                }
                _ => self.say("type_name", x.type_name()),
            }
            let is_second = hashable_by_rule(y, &mut Vec::new());
            self.say_hash("hash", x, is);
            self.say_hash("hash y", y, is_second);
            if is && is_second {
                let (same, by_rule) = (hash(x) == hash(y), hash::of_value(x) == hash::of_value(y));
                if same != by_rule && has_host(x, &mut Vec::new()) && has_host(y, &mut Vec::new()) {
                    self.depart(Departure::HashBytes);
                    self.say("same_hash", by_rule);
                } else {
                    self.say("same_hash", same);
                }
            } else {
                self.say("same_hash", "none");
            }
            return;
        }
        self.say_quoted("display", &x.to_string());
        self.say_quoted("debug", &format!("{x:?}"));
        self.ask("hashable", || hooks::is_hashable(x));
        self.ask("type_name", || x.type_name());
        for (key, v) in [("hash", x), ("hash y", y)] {
            self.say_hash(key, v, guarded(|| hooks::is_hashable(v)) == Some(true));
        }
        self.ask("same_hash", || {
            if hooks::is_hashable(x) && hooks::is_hashable(y) {
                (hash(x) == hash(y)).to_string()
            } else {
                "none".into()
            }
        });
    }

    /// Reports the hash bytes of a value, which the release doesn't have.
    fn say_hash(&mut self, key: &str, v: &Dynamic, is_hashable: bool) {
        let bytes = if is_hashable { hash::of_value(v) } else { "none".into() };
        self.say(key, bytes);
    }

    pub(super) fn questions(&mut self, x: &mut Dynamic) {
        self.say("variant", x.is_variant());
        self.say("shared", x.is_shared());
        self.say("read_only", x.is_read_only());
        self.say("locked", x.is_locked());
        let mut t = None;
        if self.adapt && x.is_shared() {
            match self.inner(x) {
                Some(i) => t = Some(i),
                None => {
                    self.say("type_name", "<shared>");
                    for k in ["unit", "int", "bool", "char", "string", "array", "blob", "map", "fnptr"] {
                        self.say(&format!("is_{k}"), false);
                    }
                    for k in ["unit", "int", "bool", "char", "text", "array", "blob", "map"] {
                        self.say(&format!("as_{k}"), "<shared>");
                    }
                    return;
                }
            }
        }
        let v = t.as_ref().unwrap_or(x);
        self.ask("type_name", || v.type_name());
        self.ask("is_unit", || v.is_unit());
        self.ask("is_int", || v.is_int());
        self.ask("is_bool", || v.is_bool());
        self.ask("is_char", || v.is_char());
        self.ask("is_string", || v.is_string());
        self.ask("is_array", || v.is_array());
        self.ask("is_blob", || v.is_blob());
        self.ask("is_map", || v.is_map());
        self.ask("is_fnptr", || v.is_fnptr());
        let adapt = self.adapt;
        if adapt && v.is_shared() {
            self.why.insert(Departure::RcName);
        }
        let name = |e: &'static str| if adapt { v.type_name() } else { e };
        self.ask("as_unit", || v.as_unit().map_or_else(|e| name(e).to_string(), |()| "()".into()));
        self.ask("as_int", || v.as_int().map_or_else(|e| name(e).to_string(), |n| n.to_string()));
        self.ask("as_bool", || v.as_bool().map_or_else(|e| name(e).to_string(), |n| n.to_string()));
        self.ask("as_char", || v.as_char().map_or_else(|e| name(e).to_string(), |n| (n as u32).to_string()));
        self.ask("as_text", || {
            v.as_immutable_string_ref().map_or_else(str::to_string, |s| {
                let mut out = String::new();
                quote(&s, &mut out);
                out
            })
        });
        self.ask("as_array", || v.as_array_ref().map_or_else(str::to_string, |a| dumped_items(&a)));
        self.ask("as_blob", || v.as_blob_ref().map_or_else(str::to_string, |a| dumped(&Dynamic::from_blob(a.clone()))));
        self.ask("as_map", || v.as_map_ref().map_or_else(str::to_string, |m| dumped_map(&m)));
    }
}

fn hash(v: &Dynamic) -> u64 {
    let mut h = std::collections::hash_map::DefaultHasher::new();
    v.hash(&mut h);
    h.finish()
}
