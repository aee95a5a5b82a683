//! Parts that are written back, targets, and writes through holders.

use super::{guarded, Desk};
use crate::departures::Departure;
use crate::ends::{flat, meets_twice};
use crate::printed::{printed_by_rule, Form};
use rhai::{hooks, Dynamic, Position, Target, Union, ERR};

/// The position for each call that needs one.
const PLACE: Position = Position::new(3, 4);

/// A part of a value: a bit, bits of a mask, a byte, a character or a slice of characters, by two numbers.
#[derive(Clone, Copy)]
pub(crate) struct Piece {
    pub kind: u8,
    pub first: i64,
    pub second: u64,
    pub exclusive: bool,
}

/// The outcome of writing a part back.
pub(crate) enum Written {
    NoPart,
    Panics,
    Done,
    Fault(Box<ERR>),
}

/// The cell of a holder.
fn again_cell(holder: &Dynamic) -> rhai::Shared<rhai::Locked<Dynamic>> {
    let Union::Shared(cell, ..) = hooks::union(holder) else { unreachable!() };
    cell.clone()
}

impl Piece {
    /// The part of a value, if it has it.
    pub(crate) fn of(self, source: &mut Dynamic, value: Dynamic) -> Option<Target<'_>> {
        let Self { kind, first, second, exclusive } = self;
        let held = flat(source);
        match (kind, hooks::union(&held)) {
            (0, Union::Int(..)) if (first & 0xff) < 64 => Some(Target::Bit { source, value, bit: first as u8 }),
            (1, Union::Int(..)) if (second & 0xff) < 64 => {
                Some(Target::BitField { source, value, mask: first, shift: second as u8 })
            }
            (2, Union::Blob(bytes, ..)) if (first as u64) < bytes.len() as u64 => {
                Some(Target::BlobByte { source, value, index: first as usize })
            }
            (3, Union::Str(..)) => Some(Target::StringChar { source, value, index: first as usize }),
            (4.., Union::Str(..)) => {
                Some(Target::StringSlice { source, value, start: first as usize, end: second as usize, exclusive })
            }
            _ => None,
        }
    }

    fn write(self, source: &mut Dynamic, value: Dynamic) -> Written {
        let Some(mut target) = self.of(source, value) else { return Written::NoPart };
        match guarded(|| target.propagate_changed_value(PLACE)) {
            None => Written::Panics,
            Some(Ok(())) => Written::Done,
            Some(Err(e)) => Written::Fault(e),
        }
    }
}

impl Desk {
    /// Writes back what is made of a value by the port's rules: the chains of both followed, and the source's cell marked meanwhile.
    pub(crate) fn written_back(&mut self, x: &mut Dynamic, mut value: Dynamic, piece: Piece) -> Written {
        let mut inner = if x.is_shared() { self.inner(x) } else { None };
        if piece.kind < 4 {
            if value.is_shared() {
                if piece.of(x, Dynamic::UNIT).is_none() {
                    return Written::NoPart;
                }
                match self.fitting(&value, piece.kind) {
                    Ok(fitting) => value = fitting,
                    Err(fault) => return Written::Fault(fault),
                }
            }
        } else if matches!(hooks::union(&flat(x)), Union::Str(..)) {
            let cell = inner.as_ref().map(again_cell);
            let mark = cell.as_ref().map(|cell| cell.borrow_mut());
            let (raw, ruled) = (value.to_string(), printed_by_rule(&value, Form::Display));
            let text = self.text_by_rule(raw, ruled, meets_twice(&value, &mut Vec::new()));
            drop(mark);
            value = Dynamic::from(text);
        }
        piece.write(inner.as_mut().unwrap_or(x), value)
    }

    /// What a holder holds, where a piece of the kind can be made of it.
    fn fitting(&mut self, value: &Dynamic, kind: u8) -> Result<Dynamic, Box<ERR>> {
        let wanted = ["bool", "integer", "INT", "char"][usize::from(kind)];
        let held = self.inner(value).map(|holder| holder.flatten_clone());
        let fits = held.as_ref().is_some_and(|held| match kind {
            0 => held.is_bool(),
            3 => held.is_char(),
            _ => held.is_int(),
        });
        match held {
            Some(held) if fits => Ok(held),
            Some(_) | None => {
                self.depart(Departure::RcName);
                let name = held.map_or("<shared>", |held| held.type_name());
                Err(ERR::ErrorMismatchDataType(wanted.into(), name.into(), PLACE).into())
            }
        }
    }

    pub(super) fn write_back(&mut self, x: &mut Dynamic, y: &mut Dynamic, piece: Piece) {
        let value = std::mem::take(y);
        let written = if self.adapt { self.written_back(x, value, piece) } else { piece.write(x, value) };
        match written {
            Written::NoPart => self.say("part", "none"),
            Written::Panics => self.say("part", "PANIC"),
            Written::Done => self.say("part", "written"),
            Written::Fault(e) => self.say_fault(&e),
        }
    }

    fn say_target(&mut self, t: &Target) {
        self.say("is_ref", t.is_ref());
        self.say("is_temp", t.is_temp_value());
        self.say("is_shared", t.is_shared());
        self.say_value("source", t.source());
        self.say_value("as_ref", t.as_ref());
    }

    pub(super) fn target(&mut self, x: &mut Dynamic, y: &mut Dynamic, how: u8, way: u8, piece: Piece) {
        let mut target = match how {
            0 => match Target::try_from(x) {
                Ok(t) => t,
                Err(e) => return self.say_fault(&e),
            },
            1 => Target::from(std::mem::take(x)),
            _ => match piece.of(x, Dynamic::TRUE) {
                Some(t) => t,
                None => return self.say("part", "none"),
            },
        };
        self.say_target(&target);
        if way >= 4 {
            *target.as_mut() = std::mem::take(y);
        }
        match way & 3 {
            0 => {
                let taken = target.take_or_clone();
                self.say_kept("taken", taken);
            }
            1 => match target.take_ref() {
                Some(r) => {
                    r.set_tag(77);
                    self.say("ref", "some");
                }
                None => self.say("ref", "none"),
            },
            2 => {
                let owned = target.into_owned();
                self.say_target(&owned);
            }
            _ => (),
        }
    }

    pub(super) fn write_call(&mut self, x: &mut Dynamic, y: &mut Dynamic, way: u8, text: &str) {
        let mut inner = None;
        if self.adapt && (1..=4).contains(&way) && x.is_shared() {
            match self.inner(x) {
                Some(h) => inner = Some(h),
                None => {
                    if matches!(way, 2 | 4) {
                        drop(y.take());
                    }
                    return self.say("not", "<shared>");
                }
            }
        }
        let w = inner.as_mut().unwrap_or(x);
        let not = match way {
            0 => guarded(|| match w.write_lock::<Dynamic>() {
                Some(mut place) => {
                    *place = std::mem::take(y);
                    None
                }
                None => Some("whole"),
            }),
            1 => guarded(|| w.as_immutable_string_mut().map(|mut s| *s = text.into()).err()),
            2 => {
                let y = std::mem::take(y);
                guarded(|| w.as_array_mut().map(|mut a| a.push(y)).err())
            }
            3 => guarded(|| w.as_blob_mut().map(|mut a| a.push(7)).err()),
            4 => {
                let y = std::mem::take(y);
                guarded(|| w.as_map_mut().map(|mut m| m.insert(text.into(), y)).err())
            }
            _ => {
                let made = w.read_lock::<Dynamic>().map(|v| v.clone());
                match made {
                    Some(v) => self.say_value("whole", &v),
                    None => self.say_quoted("whole", "none"),
                }
                return;
            }
        };
        match not {
            None => self.say("not", "PANIC"),
            Some(Some(name)) => self.say("not", name),
            Some(None) => (),
        }
    }
}
