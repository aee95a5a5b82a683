//! Copies values into a world.
use super::head::{Children, Head, Leaf};
use super::Value;
use crate::error::Error;
use crate::names::Name;
use crate::world::World;
use std::iter;

/// A value whose children are being put.
struct Level<'a> {
    value: &'a Value,
    left: Children<'a>,
}

impl World {
    /// Appends the value. After an error the hand is unchanged.
    pub fn put(&mut self, value: &Value) -> Result<(), Error> {
        let before = self.hand_len();
        let put = self.put_whole(value);
        if put.is_err() {
            while self.hand_len() > before {
                self.drop()?;
            }
        }
        put
    }

    /// Puts the children of each value, and then makes the value from them.
    fn put_whole(&mut self, value: &Value) -> Result<(), Error> {
        let mut open: Vec<Level<'_>> = Vec::new();
        let mut next = Some(value);
        loop {
            match next {
                Some(value) if value.has_inside() => {
                    open.try_reserve(1)?;
                    open.push(Level { value, left: value.children() });
                }
                Some(value) => self.put_head(value)?,
                None => {
                    let Some(level) = open.pop() else { return Ok(()) };
                    self.put_head(level.value)?;
                }
            }
            next = open.last_mut().and_then(|level| level.left.next()).map(|(_, value)| value);
        }
    }

    /// Appends a value that takes its children from the end of the hand.
    fn put_head(&mut self, value: &Value) -> Result<(), Error> {
        match value.head() {
            Head::Leaf(leaf) => self.put_leaf(leaf),
            Head::Array(count) => self.make_array(count),
            Head::Map(_) => self.with_names(value.children().map(|(key, _)| key), World::make_map),
            Head::FnPtr(name, count) => self.with_names(iter::once(name), |world, names| match names {
                [name] => world.make_fn(*name, count),
                [] | [_, ..] => Err(Error::Unexpected),
            }),
        }
    }

    fn put_leaf(&mut self, leaf: Leaf<'_>) -> Result<(), Error> {
        match leaf {
            Leaf::Unit => self.put_unit(),
            Leaf::Bool(truth) => self.put_bool(truth),
            Leaf::Int(n) => self.put_int(n),
            Leaf::Char(character) => self.put_char(character),
            Leaf::Text(text) => self.put_text(text),
            Leaf::Blob(bytes) => self.put_blob(bytes),
            Leaf::U8(n) => self.put_u8(n),
            Leaf::U16(n) => self.put_u16(n),
            Leaf::U32(n) => self.put_u32(n),
            Leaf::U64(n) => self.put_u64(n),
            Leaf::U128(n) => self.put_u128(n),
            Leaf::I8(n) => self.put_i8(n),
            Leaf::I16(n) => self.put_i16(n),
            Leaf::I32(n) => self.put_i32(n),
            Leaf::I128(n) => self.put_i128(n),
            Leaf::Range(start, end) => self.put_range(start, end),
            Leaf::RangeWithEnd(start, end) => self.put_range_with_end(start, end),
        }
    }

    /// Does the work with names that are passed to the world for its duration.
    fn with_names<'a>(
        &mut self,
        texts: impl Iterator<Item = &'a str>,
        work: impl FnOnce(&mut World, &[Name]) -> Result<(), Error>,
    ) -> Result<(), Error> {
        let mut names = Vec::new();
        let mut texts = texts;
        let named = texts.try_for_each(|text| {
            names.try_reserve(1)?;
            names.push(self.name(text)?);
            Ok(())
        });
        let done = named.and_then(|()| work(self, &names));
        for name in names.into_iter().rev() {
            self.forget_name(name)?;
        }
        done
    }
}
