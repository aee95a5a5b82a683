//! Casts, by the 22 types.

use super::{guarded, Desk};
use crate::departures::Departure;
use crate::dump::{cell_of, dumped};
use crate::ends::{cast_here, end, flat, is_chain, is_last, moved, End};
use rhai::{hooks, Dynamic, ExclusiveRange, FnPtr, ImmutableString, InclusiveRange, Map, Union, Variant};
use std::any::TypeId;

fn told(v: Option<Dynamic>) -> String {
    v.map_or_else(|| "none".into(), |v| dumped(&v))
}

impl Desk {
    /// What the value itself has of the type, and writes over it what the second value is as one of the type.
    fn written_over<T: Variant + Clone>(&mut self, x: &mut Dynamic, y: &Dynamic) {
        let found = hooks::downcast_mut::<T>(x).map(|place| {
            let before = place.clone();
            if let Some(new) = flat(y).try_cast::<T>() {
                *place = new;
            }
            Dynamic::from(before)
        });
        self.say("downcast_mut", told(found));
        self.say_value("written", x);
    }

    fn cast<T: Variant + Clone>(&mut self, x: &mut Dynamic, y: &Dynamic, way: u8) {
        let end = if self.adapt { end(x) } else { End::Own };
        if let End::Stuck(_) = end {
            self.depart(Departure::BorrowedQuestion);
            self.depart(Departure::BorrowedIs);
        }
        if self.adapt && is_chain(x) {
            self.depart(Departure::FirstCell);
        }
        self.looked_into::<T>(x, end);
        self.clone_cast::<T>(x);
        let is_last_inside = way == 3 && matches!(hooks::union(x), Union::Array(a, ..) if a.iter().any(is_last));
        if self.adapt && (is_last(x) || is_last_inside) {
            self.depart(Departure::LastHolder);
        }
        // A holder that is kept isn't the last one.
        let kept = self.adapt.then(|| x.clone());
        if way == 4 {
            self.written_over::<T>(x, y);
        } else {
            self.cast_out::<T>(x, way);
        }
        drop(kept);
    }

    /// Questions of a type, and locks, of what is held; a lock of the value itself where the type is that of all values.
    fn looked_into<T: Variant + Clone>(&mut self, x: &mut Dynamic, end: End) {
        let is_dynamic = TypeId::of::<T>() == TypeId::of::<Dynamic>();
        let is_stuck = matches!(end, End::Stuck(_));
        let mut holder = if let End::Held(holder) = end { Some(holder) } else { None };
        if is_stuck {
            self.say("is", false);
            self.say("type_id", false);
        } else {
            let v = holder.as_ref().unwrap_or(x);
            self.ask("is", || v.is::<T>());
            self.ask("type_id", || v.type_id() == TypeId::of::<T>());
        }
        let bars = is_stuck && !is_dynamic;
        if bars {
            self.say("read_lock", "none");
        } else {
            let v = holder.as_ref().filter(|_| !is_dynamic).unwrap_or(x);
            self.ask("read_lock", || told(v.read_lock::<T>().map(|x| Dynamic::from(x.clone()))));
        }
        self.ask("downcast_ref", || told(hooks::downcast_ref::<T>(x).map(|x| Dynamic::from(x.clone()))));
        if bars {
            self.say("write_lock", "none");
        } else {
            let v = holder.as_mut().filter(|_| !is_dynamic).unwrap_or(x);
            self.ask("write_lock", || told(v.write_lock::<T>().map(|x| Dynamic::from(x.clone()))));
        }
    }

    fn clone_cast<T: Variant + Clone>(&mut self, x: &Dynamic) {
        let made = if self.adapt {
            cast_here::<T>(&flat(x))
        } else {
            // It panics exactly if another type is held.
            guarded(|| x.clone_cast::<T>()).map(Dynamic::from)
        };
        self.say("clone_cast", told(made));
    }

    /// The value moved out; by the port's rule one whose chain is followed is a copy of what is held.
    fn moved_out(&self, x: &mut Dynamic) -> Dynamic {
        let whole = std::mem::take(x);
        if self.adapt && is_chain(&whole) {
            flat(&whole)
        } else {
            whole
        }
    }

    fn cast_out<T: Variant + Clone>(&mut self, x: &mut Dynamic, way: u8) {
        match way {
            0 => {
                let own = self.moved_out(x);
                self.ask("try_cast", || told(own.try_cast::<T>().map(Dynamic::from)));
            }
            1 => {
                let own = self.moved_out(x);
                match guarded(|| own.try_cast_result::<T>()) {
                    None => self.say("cast_result", "PANIC"),
                    Some(Ok(v)) => self.say_value("cast_result", &Dynamic::from(v)),
                    Some(Err(back)) => self.say_value("cast_back", &back),
                }
            }
            2 => {
                let is_dynamic = TypeId::of::<T>() == TypeId::of::<Dynamic>();
                if !is_dynamic && cast_here::<T>(&flat(x)).is_none() {
                    return self.say("cast", "none");
                }
                let own = if is_dynamic { std::mem::take(x) } else { self.moved_out(x) };
                self.ask("cast", || told(Some(Dynamic::from(own.cast::<T>()))));
            }
            _ => {
                let own = std::mem::take(x);
                self.typed_array::<T>(own);
            }
        }
    }

    /// The items of an array or the bytes of a blob by the port's rule: a holder's value is copied without its holders.
    fn typed_by_rule<T: Variant + Clone>(&mut self, x: Dynamic) {
        let is_held = x.is_shared();
        let Some(inner) = self.inner(&x) else { return self.say("typed", "<shared>") };
        let whole = if is_held { flat(&inner) } else { x };
        match hooks::union(&whole) {
            Union::Blob(bytes, ..) if TypeId::of::<T>() == TypeId::of::<u8>() => {
                if is_held {
                    self.depart(Departure::SharedBlob);
                }
                let made: Vec<_> = bytes.iter().map(|byte| Dynamic::from(*byte)).collect();
                self.say_value("typed", &made.into());
            }
            Union::Array(items, ..) => {
                if is_held || items.iter().any(Dynamic::is_shared) {
                    self.depart(Departure::TypedArray);
                }
                self.typed_items::<T>(items);
            }
            _ => {
                if is_held {
                    self.depart(Departure::RcName);
                }
                self.say("typed", whole.type_name());
            }
        }
    }

    /// The items, moved with their modes.
    fn typed_items<T: Variant + Clone>(&mut self, items: &[Dynamic]) {
        let mut made = Vec::new();
        for item in items {
            let own = match end(item) {
                End::Held(_) => flat(item),
                End::Stuck(holder) if cell_of(&holder) != cell_of(item) => holder,
                End::Own | End::Stuck(_) => moved(item),
            };
            match cast_here::<T>(&own) {
                Some(v) => made.push(v),
                None => return self.say("typed", if item.is_shared() { "<shared>" } else { own.type_name() }),
            }
        }
        self.say_value("typed", &Dynamic::from_array(made));
    }

    fn typed_array<T: Variant + Clone>(&mut self, x: Dynamic) {
        if self.adapt {
            return self.typed_by_rule::<T>(x);
        }
        let is_u8 = TypeId::of::<T>() == TypeId::of::<u8>();
        if is_u8 && x.is_shared() && matches!(hooks::union(&flat(&x)), Union::Blob(..)) {
            return self.say("typed", "FAULT");
        }
        let made = guarded(|| x.into_typed_array::<T>().map(|a| Dynamic::from_array(a.into_iter().map(Dynamic::from).collect())));
        match made {
            None => self.say("typed", "PANIC"),
            Some(Ok(v)) => self.say_value("typed", &v),
            Some(Err(name)) => self.say("typed", name),
        }
    }

    pub(super) fn cast_call(&mut self, x: &mut Dynamic, y: &Dynamic, kind: u8, way: u8) {
        match kind {
            0 => self.cast::<()>(x, y, way),
            1 => self.cast::<bool>(x, y, way),
            2 => self.cast::<char>(x, y, way),
            3 => self.cast::<i64>(x, y, way),
            4 => self.cast::<u8>(x, y, way),
            5 => self.cast::<u16>(x, y, way),
            6 => self.cast::<u32>(x, y, way),
            7 => self.cast::<u64>(x, y, way),
            8 => self.cast::<u128>(x, y, way),
            9 => self.cast::<i8>(x, y, way),
            10 => self.cast::<i16>(x, y, way),
            11 => self.cast::<i32>(x, y, way),
            12 => self.cast::<i128>(x, y, way),
            13 => self.cast::<String>(x, y, way),
            14 => self.cast::<ImmutableString>(x, y, way),
            15 => self.cast::<rhai::Array>(x, y, way),
            16 => self.cast::<rhai::Blob>(x, y, way),
            17 => self.cast::<Map>(x, y, way),
            18 => self.cast::<FnPtr>(x, y, way),
            19 => self.cast::<ExclusiveRange>(x, y, way),
            20 => self.cast::<InclusiveRange>(x, y, way),
            _ => self.cast::<Dynamic>(x, y, way),
        }
    }
}
