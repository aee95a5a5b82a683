//! Marks of cells.

use super::command::Command;
use super::{done, fit, refused, Done, LeftOut, Slot, Stop, World};
use crate::dump::cell_of;
use rhai::{hooks, Dynamic, Locked, Shared, Union};
use std::cell::RefMut;

/// The mark of a cell: a mutable borrow, which keeps the cell. (The guard is the first field, so that it is dropped first.)
pub struct Mark {
    guard: RefMut<'static, Dynamic>,
    cell: Shared<Locked<Dynamic>>,
}

impl Mark {
    /// Marks the cell of a holder; `None` if it is marked.
    fn of(holder: &Dynamic) -> Option<Self> {
        let Union::Shared(cell, ..) = hooks::union(holder) else { return None };
        let cell = cell.clone();
        let guard = cell.try_borrow_mut().ok()?;
        // SAFETY: the guard points into the counted block, which doesn't move, and lives until `cell` is dropped, after the guard.
        let guard = unsafe { std::mem::transmute::<RefMut<'_, Dynamic>, RefMut<'static, Dynamic>>(guard) };
        Some(Self { guard, cell })
    }

    fn is_of(&self, place: *const ()) -> bool {
        Shared::as_ptr(&self.cell).cast::<()>() == place
    }
}

impl World {
    /// Whether a chain of holders reaches a cell.
    pub(super) fn comes_to(&self, v: &Dynamic, cell: *const ()) -> bool {
        let Union::Shared(own, ..) = hooks::union(v) else { return false };
        let place = cell_of(v).expect("a holder");
        if place == cell {
            return true;
        }
        match own.try_borrow() {
            Ok(content) => self.comes_to(&content, cell),
            Err(_) => self.marks.iter().filter(|mark| mark.is_of(place)).any(|mark| self.comes_to(&mark.guard, cell)),
        }
    }

    fn mark(&mut self, slot: &Slot) -> Done {
        let holder = self.place_of(slot);
        if !holder.is_shared() {
            return refused("WrongSource");
        }
        let Some(mark) = Mark::of(holder) else { return refused("ErrorDataRace") };
        self.marks.push(mark);
        done()
    }

    fn marked(&self, k: usize) -> Result<&Mark, Stop> {
        self.marks.get(k).map_or_else(|| refused("NoMark"), Ok)
    }

    fn write_marked(&mut self, k: usize, i: usize) -> Done {
        let value = self.value(i)?;
        let place = Shared::as_ptr(&self.marked(k)?.cell).cast();
        if self.comes_to(value, place) {
            return Err(Stop::LeftOut(LeftOut::LoopOfHolders));
        }
        let value = self.taken(i);
        *self.marks[k].guard = value;
        done()
    }

    fn read_marked(&mut self, k: usize) -> Done {
        let value = (*self.marked(k)?.guard).clone();
        fit([&value])?;
        self.append(value)
    }

    pub(super) fn apply_mark(&mut self, command: &Command) -> Done {
        match command {
            Command::Mark(place) => {
                let slot = self.slot(place)?;
                self.mark(&slot)
            }
            Command::Unmark(k) => {
                self.marked(*k)?;
                drop(self.marks.remove(*k));
                done()
            }
            Command::WriteMarked(k, i) => self.write_marked(*k, *i),
            Command::ReadMarked(k) => self.read_marked(*k),
            _ => unreachable!("no command on marks"),
        }
    }
}
