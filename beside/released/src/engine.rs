//! Replaces the parts of `Engine`, `NativeCallContext` and `Position` that the five files use.

use crate::{types::dynamic::Union, Dynamic, RhaiResultOf, ERR};
use std::fmt;

#[derive(Eq, PartialEq, Hash, Copy, Clone, Default)]
pub struct Position {
    line: u16,
    pos: u16,
}

impl Position {
    pub const NONE: Self = Self { line: 0, pos: 0 };
    #[must_use]
    pub const fn new(line: u16, pos: u16) -> Self {
        Self { line, pos }
    }
}

impl fmt::Debug for Position {
    fn fmt(&self, f: &mut fmt::Formatter<'_>) -> fmt::Result {
        if self.line == 0 {
            f.write_str("none")
        } else {
            write!(f, "{}:{}", self.line, self.pos)
        }
    }
}

/// Only the size limits; 0 means none.
#[derive(Debug, Default, Clone)]
pub struct Engine {
    pub max_string: usize,
    pub max_array: usize,
    pub max_map: usize,
}

impl Engine {
    #[must_use]
    pub const fn new() -> Self {
        Self { max_string: 0, max_array: 0, max_map: 0 }
    }
    #[inline]
    pub(crate) fn throw_on_size(&self, sizes: (usize, usize, usize)) -> RhaiResultOf<()> {
        let (arr, map, s) = sizes;
        if self.max_string != 0 && s > self.max_string {
            return Err(ERR::ErrorDataTooLarge("Length of string".into(), Position::NONE).into());
        }
        if self.max_array != 0 && arr > self.max_array {
            return Err(ERR::ErrorDataTooLarge("Size of array/BLOB".into(), Position::NONE).into());
        }
        if self.max_map != 0 && map > self.max_map {
            return Err(ERR::ErrorDataTooLarge("Size of object map".into(), Position::NONE).into());
        }
        Ok(())
    }
    #[inline]
    pub(crate) fn check_data_size(&self, value: &Dynamic, _pos: Position) -> RhaiResultOf<()> {
        if self.max_string == 0 && self.max_array == 0 && self.max_map == 0 {
            return Ok(());
        }
        self.throw_on_size(calc_data_sizes(value))
    }
}

/// The engine's recursive count: arrays and maps count their elements' sizes too.
/// (Written from the crate's documented behaviour; not part of the five files.)
fn calc_data_sizes(value: &Dynamic) -> (usize, usize, usize) {
    match value.0 {
        Union::Array(ref a, ..) => {
            let mut t = (0, 0, 0);
            for v in a.iter() {
                let (x, y, z) = calc_data_sizes(v);
                t = (t.0 + x, t.1 + y, t.2 + z);
            }
            (t.0 + a.len(), t.1, t.2)
        }
        Union::Blob(ref b, ..) => (b.len(), 0, 0),
        Union::Map(ref m, ..) => {
            let mut t = (0, 0, 0);
            for v in m.values() {
                let (x, y, z) = calc_data_sizes(v);
                t = (t.0 + x, t.1 + y, t.2 + z);
            }
            (t.0, t.1 + m.len(), t.2)
        }
        Union::Str(ref s, ..) => (0, 0, s.len()),
        _ => (0, 0, 0),
    }
}

/// A context is only a way to the engine here.
#[derive(Debug, Clone, Copy)]
pub struct NativeCallContext<'a> {
    engine: &'a Engine,
}

impl<'a> NativeCallContext<'a> {
    #[inline(always)]
    #[must_use]
    pub const fn new(engine: &'a Engine) -> Self {
        Self { engine }
    }
    #[inline(always)]
    #[must_use]
    pub const fn engine(&self) -> &'a Engine {
        self.engine
    }
}
