//! Commands that change values, in the hand, in entries and in cells.

use super::ask::SHARED;
use super::command::{Command, Kind, Place, Scanner};
use super::kinds::{for_kind, own_int, CastOf};
use super::{done, fault, fit, line, refused, Done, LeftOut, Stop, World};
use crate::departures::Departure;
use crate::dump::{cell_of, dumped};
use crate::ends::{end, flat, is_last, moved, End};
use crate::release::operators::Operated;
use crate::release::parts::{Piece, Written};
use rhai::{hooks, AccessMode, Dynamic, Token, Union};

/// What a holder that is the last of its cell becomes by the release: the content itself, modes kept.
fn content_of_last(v: &Dynamic) -> Option<Dynamic> {
    match hooks::union(v) {
        Union::Shared(cell, ..) if is_last(v) => cell.try_borrow().ok().map(|content| moved(&content)),
        _ => None,
    }
}

impl World {
    /// A value without its holders: always a copy of what is held.
    pub(super) fn flattened(&mut self, v: Dynamic) -> Dynamic {
        let last = content_of_last(&v);
        let kept = v.is_shared().then(|| v.clone());
        let new = v.flatten();
        if last.is_some_and(|last| dumped(&last) != dumped(&new)) {
            self.desk.depart(Departure::LastHolder);
        }
        drop(kept);
        new
    }

    fn cast(&mut self, i: usize, kind: Kind) -> Done {
        let v = self.value(i)?.clone();
        if kind != SHARED {
            if let Some(made) = for_kind(kind, CastOf(&flat(&v))).flatten() {
                return self.append(made);
            }
        }
        self.refuse_type(&v)
    }

    fn write_int(&mut self, i: usize, n: i64) -> Done {
        let v = self.value(i)?.clone();
        if !v.is_shared() {
            return match own_int(&mut self.hand[i]) {
                Some(int) => {
                    *int = n;
                    done()
                }
                None => self.refuse_type(&v),
            };
        }
        let Some(mut inner) = self.desk.inner(&v) else { return refused("Mismatch <shared>") };
        if let Some(mut int) = inner.write_lock::<i64>() {
            *int = n;
            return done();
        }
        self.refuse_type(&v)
    }

    fn write(&mut self, i: usize, j: usize) -> Done {
        let target = self.value(i)?.clone();
        let value = self.value(j)?;
        if i == j {
            return refused("SameValue");
        }
        if target.read_lock::<Dynamic>().is_none() {
            return refused("ErrorDataRace");
        }
        if cell_of(&target).is_some_and(|cell| self.comes_to(value, cell)) {
            return Err(Stop::LeftOut(LeftOut::LoopOfHolders));
        }
        let value = self.taken(j);
        *self.hand[i].write_lock::<Dynamic>().expect("a place that may be written") = value;
        done()
    }

    fn binary(&mut self, op: Token, i: usize, j: usize) -> Done {
        let x = self.value(i)?;
        let y = self.value(j)?;
        fit([x, y])?;
        if i == j {
            return refused("SameValue");
        }
        let (mut x, mut y) = (std::mem::take(&mut self.hand[i]), std::mem::take(&mut self.hand[j]));
        let operated = self.desk.operated(op, &mut x, &mut y);
        self.hand[i] = x;
        self.hand[j] = y;
        match operated {
            Operated::NoRow => refused("NoBuiltin"),
            Operated::LookUpPanics | Operated::Row(_, None) => refused("PANIC"),
            Operated::Row(_, Some(Ok(value))) => self.append(value),
            Operated::Row(_, Some(Err(error))) => fault(&error),
        }
    }

    fn assign(&mut self, op: Token, place: &Place, j: usize) -> Done {
        self.value(j)?;
        let slot = self.slot(place)?;
        if matches!(place, Place::Hand(i) if *i == j) {
            return refused("SameValue");
        }
        let first = match self.place_of(&slot).read_lock::<Dynamic>() {
            Some(first) => first.clone(),
            None => return refused("ErrorDataRace"),
        };
        fit([&flat(&first), &flat(&self.hand[j])])?;
        let mut x = std::mem::take(self.place_of(&slot));
        let mut y = std::mem::take(&mut self.hand[j]);
        let operated = self.desk.assigned(op, &first, &mut x, &mut y);
        *self.place_of(&slot) = x;
        self.hand[j] = y;
        match operated {
            Operated::NoRow => refused("NoBuiltin"),
            Operated::LookUpPanics | Operated::Row(_, None) => refused("PANIC"),
            Operated::Row(_, Some(Ok(_))) => done(),
            Operated::Row(_, Some(Err(error))) => fault(&error),
        }
    }

    fn scan(&mut self, i: usize, scanner: Scanner) -> Done {
        self.value(i)?;
        let mut visits = 0_u64;
        self.hand[i].deep_scan(|v| {
            visits += 1;
            match scanner {
                Scanner::Tags(tag) => {
                    v.set_tag(tag);
                }
                Scanner::Zero => {
                    if let Some(int) = own_int(v) {
                        *int = 0;
                    }
                }
                Scanner::NoShare => {
                    if v.is_shared() {
                        *v = Dynamic::UNIT;
                    }
                }
                Scanner::Cut(count) => {
                    if let Some(items) = hooks::downcast_mut::<rhai::Array>(v) {
                        items.truncate(count);
                    }
                }
            }
        });
        line(visits)
    }

    /// Whether a source has a part.
    fn has_part(&mut self, source: &Dynamic, piece: Piece) -> Result<(), Stop> {
        let held = flat(source);
        if matches!(end(source), End::Stuck(_)) {
            self.desk.depart(Departure::BorrowedQuestion);
        }
        match (piece.kind, hooks::union(&held)) {
            (0, Union::Int(..)) if piece.first >= 64 => refused("BitPlace"),
            (1, Union::Int(..)) if piece.second >= 64 => refused("BitPlace"),
            (2, Union::Blob(bytes, ..)) if piece.first as u64 >= bytes.len() as u64 => refused("BytePlace"),
            (0 | 1, Union::Int(..)) | (2, Union::Blob(..)) | (3 | 4, Union::Str(..)) => Ok(()),
            _ => refused("WrongSource"),
        }
    }

    fn write_back(&mut self, place: &Place, piece: Piece, j: usize) -> Done {
        let value = self.value(j)?.clone();
        let slot = self.slot(place)?;
        let source = self.place_of(&slot).clone();
        self.has_part(&source, piece)?;
        fit([&flat(&source), &value])?;
        let mut x = std::mem::take(self.place_of(&slot));
        let written = self.desk.written_back(&mut x, value, piece);
        *self.place_of(&slot) = x;
        match written {
            Written::NoPart | Written::Panics => refused("PANIC"),
            Written::Done => done(),
            Written::Fault(error) => fault(&error),
        }
    }

    pub(super) fn apply_change(&mut self, command: &Command) -> Done {
        let piece = |kind, first, second, exclusive| Piece { kind, first, second, exclusive };
        match command {
            Command::Share(i) => {
                self.value(*i)?;
                self.hand[*i] = std::mem::take(&mut self.hand[*i]).into_shared();
                done()
            }
            Command::Flatten(i) => {
                self.value(*i)?;
                let v = std::mem::take(&mut self.hand[*i]);
                self.hand[*i] = self.flattened(v);
                done()
            }
            Command::FlattenClone(i) => {
                let v = self.value(*i)?.flatten_clone();
                self.append(v)
            }
            Command::Cast(i, kind) => self.cast(*i, *kind),
            Command::MakeReadOnly(i) => {
                self.value(*i)?;
                hooks::set_access_mode(&mut self.hand[*i], AccessMode::ReadOnly);
                done()
            }
            Command::SetTag(i, tag) => {
                self.value(*i)?;
                self.hand[*i].set_tag(*tag);
                done()
            }
            Command::WriteInt(i, n) => self.write_int(*i, *n),
            Command::Write(i, j) => self.write(*i, *j),
            Command::Binary(op, i, j) => self.binary(*op, *i, *j),
            Command::Assign(op, place, j) => self.assign(*op, place, *j),
            Command::Scan(i, scanner) => self.scan(*i, *scanner),
            Command::WriteBit(place, bit, j) => self.write_back(place, piece(0, i64::from(*bit), 0, false), *j),
            Command::WriteField(place, mask, shift, j) => self.write_back(place, piece(1, *mask, u64::from(*shift), false), *j),
            Command::WriteByte(place, index, j) => self.write_back(place, piece(2, *index as i64, 0, false), *j),
            Command::WriteChar(place, index, j) => self.write_back(place, piece(3, *index as i64, 0, false), *j),
            Command::WriteSlice(place, start, end, exclusive, j) => {
                self.write_back(place, piece(4, *start as i64, *end as u64, *exclusive), *j)
            }
            _ => unreachable!("no change"),
        }
    }
}
