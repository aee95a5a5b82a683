//! The values that a recipe works on, and the cells that they hold.

use crate::answers::Answers;
use crate::asks::ask;
use crate::casts::cast_call;
use crate::holds::hold_call;
use crate::makes::make_call;
use crate::moves::{move_call, show};
use crate::operators::{assign, operate};
use crate::parts::{offsets, write_back};
use crate::recipe::Recipe;
use crate::scopes::scope_script;
use crate::targets::target_call;
use crate::writes::write_call;
use rhai_text::ImmutableString;
use rhai_value::{AccessMode, Array, Dynamic, FnPtr, Map, Store};
use std::alloc::{AllocError, Global};
use std::mem::ManuallyDrop;

/// How deep the values of a recipe may be; anything below is unit.
const LEVELS: u32 = 32;

#[derive(Drop)]
pub struct Desk<'a> {
    pub recipe: Recipe<'a>,
    pub store: Store,
    pub cells: Vec<Dynamic>,
    pub alloc: Global,
    pub answers: Answers,
}

/// Values from recipes.
impl<'a> Desk<'a> {
    #[cycle(make)]
    fn values(&mut self, levels: u32) -> Result<Array, AllocError> {
        let count = self.recipe.count();
        let mut items = Vec::new(self.alloc);
        for _ in 0..count {
            items.push(self.value_within(levels)?)?;
        }
        Ok(items)
    }

    #[cycle(make)]
    fn map(&mut self, levels: u32) -> Result<Dynamic, AllocError> {
        let count = self.recipe.count();
        let mut map = Map::new(self.alloc);
        for _ in 0..count {
            let key = String::from_str(self.alloc, self.recipe.text())?;
            let value = self.value_within(levels)?;
            match map.insert(key, value) {
                Ok(_) => {}
                Err(_) => return Err(AllocError),
            }
        }
        Ok(Dynamic::from_map(map))
    }

    /// Makes a holder of a new cell, even if the content is a holder.
    #[cycle(make)]
    fn holder(&mut self, levels: u32) -> Result<Dynamic, AllocError> {
        let content = self.value_within(levels)?;
        let mut holder = match Dynamic::UNIT.into_shared(&mut self.store) {
            Ok(holder) => holder,
            Err(_) => return Err(AllocError),
        };
        if let Some(place) = holder.write_whole(&mut self.store) {
            *place = content;
        }
        self.cells.push(holder.copy(self.alloc)?)?;
        Ok(holder)
    }

    fn again(&mut self) -> Result<Dynamic, AllocError> {
        let cell = self.recipe.count();
        match self.cells.get(cell) {
            Some(holder) => holder.copy(self.alloc),
            None => Ok(Dynamic::UNIT),
        }
    }

    #[cycle(make)]
    fn function(&mut self, levels: u32) -> Result<Dynamic, AllocError> {
        let name = ImmutableString::from_str(self.alloc, self.recipe.text())?;
        let curry = self.values(levels)?;
        Ok(Dynamic::from(FnPtr::new(name, curry)))
    }

    #[cycle(make)]
    fn tagged(&mut self, levels: u32) -> Result<Dynamic, AllocError> {
        let tag = self.recipe.tag();
        let mut value = self.value_within(levels)?;
        value.set_tag(tag);
        Ok(value)
    }

    #[cycle(make)]
    fn constant(&mut self, levels: u32) -> Result<Dynamic, AllocError> {
        let value = self.value_within(levels)?;
        let tag = value.tag();
        Ok(value.labelled(tag, AccessMode::ReadOnly))
    }

    #[cycle(make)]
    fn value_within(&mut self, levels: u32) -> Result<Dynamic, AllocError> {
        if levels == 0 {
            return Ok(Dynamic::UNIT);
        }
        match self.recipe.byte() {
            1 => Ok(Dynamic::from_bool(self.recipe.byte() == 1)),
            2 => Ok(Dynamic::from_int(self.recipe.int())),
            3 => Ok(Dynamic::from_char(self.recipe.character())),
            4 => Dynamic::from_text(self.alloc, self.recipe.text()),
            5 => {
                let bytes = Vec::from_slice(self.alloc, self.recipe.text_bytes())?;
                Ok(Dynamic::from_blob(bytes))
            }
            6 => Ok(Dynamic::from_array(self.values(levels - 1)?)),
            7 => self.map(levels - 1),
            8 => self.function(levels - 1),
            9 => Ok(Dynamic::from(self.recipe.host())),
            12 => self.holder(levels - 1),
            13 => self.again(),
            14 => self.tagged(levels - 1),
            15 => self.constant(levels - 1),
            _ => Ok(Dynamic::UNIT),
        }
    }

    /// Reads a value from its recipe.
    pub fn value(&mut self) -> Result<Dynamic, AllocError> {
        self.value_within(LEVELS)
    }
}

/// Cells before the call, and everything left after it.
impl<'a> Desk<'a> {
    /// Overwrites the contents of cells with values.
    fn write_cells(&mut self) -> Result<(), AllocError> {
        let count = self.recipe.count();
        for _ in 0..count {
            let mut holder = self.again()?;
            let value = self.value()?;
            if let Some(place) = holder.write_whole(&mut self.store) {
                *place = value;
            }
        }
        Ok(())
    }

    /// Marks a cell until the recipe is done: its token is never spent.
    fn mark(&mut self) {
        let cell = self.recipe.count();
        let token = match self.cells.get(cell) {
            Some(holder) => self.store.mark(holder),
            None => None,
        };
        match token {
            Some(token) => {
                // SAFETY: a token is a number, and its store is dropped with the recipe, so nothing
                // leaks.
                let _unspent = unsafe { ManuallyDrop::new_unchecked(token) };
            }
            None => {}
        }
    }

    fn say_operands(&mut self, x: &Dynamic, y: &Dynamic) -> Result<(), AllocError> {
        self.answers.say_value("x", &self.store, x)?;
        self.answers.say_value("y", &self.store, y)
    }

    fn say_cells(&mut self) -> Result<(), AllocError> {
        for holder in &self.cells {
            self.answers.say_value("cell", &self.store, holder)?;
        }
        Ok(())
    }

    /// Gives the content of each cell a new tag, and writes all values again, which shows which
    /// cells their holders refer to.
    fn say_again(&mut self, x: &Dynamic, y: &Dynamic) -> Result<(), AllocError> {
        let mut tag = 5000_i32;
        for holder in &mut self.cells {
            tag = tag.wrapping_add(1);
            if let Some(content) = holder.write_whole(&mut self.store) {
                content.set_tag(tag);
            }
        }
        self.answers.say_value("x again", &self.store, x)?;
        self.answers.say_value("y again", &self.store, y)?;
        let last = self.answers.last.take();
        self.answers.say_value("last", &self.store, &last)
    }

    fn call(&mut self, x: &mut Dynamic, y: &mut Dynamic) -> Result<(), AllocError> {
        match self.recipe.byte() {
            1 => operate(self, x, y),
            2 => assign(self, x, y),
            3 => show(self, x, y),
            4 => ask(self, x),
            5 => cast_call(self, x, y),
            6 => move_call(self, x),
            7 => offsets(self),
            8 => write_back(self, x, y),
            9 => target_call(self, x, y),
            10 => scope_script(self),
            11 => write_call(self, x, y),
            12 => make_call(self, x),
            13 => hold_call(self, x, y),
            _ => Ok(()),
        }
    }

    /// Makes the call, and writes everything that is left; with `keep` also the cells, and which
    /// holder refers to which.
    fn call_and_tell(&mut self, keep: bool) -> Result<(), AllocError> {
        let mut x = self.value()?;
        let mut y = self.value()?;
        self.write_cells()?;
        self.mark();
        self.call(&mut x, &mut y)?;
        self.say_operands(&x, &y)?;
        if keep {
            self.say_cells()?;
            self.say_again(&x, &y)?;
        }
        Ok(())
    }
}

/// The answers to a recipe.
pub fn answer(alloc: Global, bytes: &[u8]) -> Result<String, AllocError> {
    let mut desk = Desk {
        recipe: Recipe { bytes, at: 0 },
        store: Store::new(alloc),
        cells: Vec::new(alloc),
        alloc,
        answers: Answers::new(alloc),
    };
    let keep = desk.recipe.byte() == 1;
    desk.call_and_tell(keep)?;
    Ok(desk.answers.into_text())
}
