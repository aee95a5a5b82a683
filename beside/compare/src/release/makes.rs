//! Arrays and maps that are made of Rust's collections.

use super::Desk;
use crate::dump::{dumped, quote};
use crate::ends::flat;
use crate::machine::command::Kind;
use crate::machine::kinds::{for_kind, ForType};
use rhai::{hooks, Dynamic, Map, Union, Variant};
use std::collections::{BTreeMap, BTreeSet, HashMap, HashSet};

/// The items of an array that can be cast to the type.
fn items<T: Variant + Clone>(x: &Dynamic) -> Vec<T> {
    match hooks::union(&flat(x)) {
        Union::Array(items, ..) => items.iter().filter_map(|item| flat(item).try_cast()).collect(),
        _ => Vec::new(),
    }
}

/// The entries of a map whose values can be cast to the type.
fn entries<T: Variant + Clone>(x: &Dynamic) -> Vec<(String, T)> {
    match hooks::union(&flat(x)) {
        Union::Map(map, ..) => map.iter().filter_map(|(key, v)| Some((key.to_string(), flat(v).try_cast()?))).collect(),
        _ => Vec::new(),
    }
}

fn keys(x: &Dynamic) -> Vec<String> {
    match hooks::union(&flat(x)) {
        Union::Map(map, ..) => map.keys().map(ToString::to_string).collect(),
        _ => Vec::new(),
    }
}

/// What is made of a value by way of one of the collections.
struct MadeOf<'v>(&'v Dynamic, u8);

impl ForType for MadeOf<'_> {
    type Answer = Dynamic;
    fn of<T: Variant + Clone>(self) -> Dynamic {
        let Self(x, way) = self;
        match way {
            0 => items::<T>(x).as_slice().into(),
            1 => items::<T>(x).into_iter().collect(),
            2 => entries::<T>(x).into_iter().collect::<HashMap<_, _>>().into(),
            3 => entries::<T>(x).into_iter().collect::<BTreeMap<_, _>>().into(),
            4 => keys(x).into_iter().collect::<HashSet<_>>().into(),
            _ => keys(x).into_iter().collect::<BTreeSet<_>>().into(),
        }
    }
}

impl Desk {
    /// Reports the entries of a map as they are moved out.
    fn say_moved(&mut self, x: &Dynamic) {
        let Some(map) = flat(x).try_cast::<Map>() else { return self.say("moved", "none") };
        for (key, v) in map {
            let mut out = String::new();
            quote(&key, &mut out);
            self.say("moved", format!("{out} {}", dumped(&v)));
        }
    }

    pub(super) fn make_call(&mut self, x: &Dynamic, kind: u8, way: u8) {
        if way == 6 {
            return self.say_moved(x);
        }
        let made = for_kind(Kind(usize::from(kind)), MadeOf(x, way)).expect("one of the 22 types");
        self.say_kept("made", made);
    }
}
