//! Calls on the value at the end of a chain, which the release lacks: their results by the cells.

use super::Desk;
use crate::ends::{end, End};
use rhai::{hooks, Dynamic, Union};

impl Desk {
    /// The held value; `None` if the chain is stuck.
    fn say_held(&mut self, x: &Dynamic) {
        match end(x) {
            End::Own => self.say_value("held", x),
            End::Stuck(_) => self.say("held", "none"),
            End::Held(holder) => {
                let Union::Shared(cell, ..) = hooks::union(&holder) else { unreachable!("a holder") };
                self.say_value("held", &cell.borrow());
            }
        }
    }

    /// Marks the cell of the held value, reports what can be read meanwhile, and writes the second value into the cell if required.
    fn marked(&mut self, x: &Dynamic, y: &mut Dynamic, writes: bool) {
        let End::Held(holder) = end(x) else { return self.say("marked", "none") };
        let Union::Shared(cell, ..) = hooks::union(&holder) else { unreachable!("a holder") };
        let mut content = cell.borrow_mut();
        self.say_value("marked", x);
        if writes {
            *content = std::mem::take(y);
        }
    }

    fn set_int(&mut self, x: &mut Dynamic, int: i64) {
        let write = |v: &mut Dynamic| hooks::downcast_mut::<i64>(v).map(|place| *place = int).is_some();
        let is_int = match end(x) {
            End::Own => write(x),
            End::Stuck(_) => false,
            End::Held(holder) => {
                let Union::Shared(cell, ..) = hooks::union(&holder) else { unreachable!("a holder") };
                let is_int = write(&mut cell.borrow_mut());
                is_int
            }
        };
        self.say("is_int", is_int);
    }

    pub(super) fn hold_call(&mut self, x: &mut Dynamic, y: &mut Dynamic, way: u8, int: i64) {
        match way {
            0 => self.say_held(x),
            1 => self.marked(x, y, false),
            2 => self.marked(x, y, true),
            _ => self.set_int(x, int),
        }
    }
}
