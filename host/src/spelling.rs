//! The words of lines.
use crate::error::Error;
use crate::kinds::{Operator, Type};
use crate::names::{Name, Place};
use crate::world::World;
use std::fmt::{self, Write};

/// What a line writes as one word, or as words with a space before each.
pub(crate) trait Word {
    type Said: fmt::Display;

    fn said(self, world: &World) -> Result<Self::Said, Error>;
}

macro_rules! plain {
    ($($kind:ty)*) => {
        $(impl Word for &$kind {
            type Said = $kind;

            fn said(self, _: &World) -> Result<$kind, Error> {
                Ok(*self)
            }
        })*
    };
}

plain! { bool u8 u16 u32 u64 u128 usize i8 i16 i32 i64 i128 Type Operator }

impl Word for &char {
    type Said = char;

    fn said(self, _: &World) -> Result<char, Error> {
        if *self == '\n' {
            return Err(Error::NoCommand);
        }
        Ok(*self)
    }
}

impl Word for &Name {
    type Said = String;

    fn said(self, world: &World) -> Result<String, Error> {
        let name = world.name_text(*self)?;
        let is_word = !name.is_empty() && name.bytes().all(|byte| byte.is_ascii_alphanumeric() || byte == b'_');
        is_word.then_some(name).ok_or(Error::NoCommand)
    }
}

impl Word for &Place {
    type Said = SaidPlace;

    fn said(self, world: &World) -> Result<SaidPlace, Error> {
        match self {
            Place::Hand(i) => Ok(SaidPlace::Hand(*i)),
            Place::Entry(name) => Ok(SaidPlace::Entry(name.said(world)?)),
        }
    }
}

/// A place, with the text of its name.
pub(crate) enum SaidPlace {
    Hand(usize),
    Entry(String),
}

impl fmt::Display for SaidPlace {
    fn fmt(&self, f: &mut fmt::Formatter<'_>) -> fmt::Result {
        match self {
            SaidPlace::Hand(i) => write!(f, "{i}"),
            SaidPlace::Entry(name) => write!(f, "@{name}"),
        }
    }
}

impl<'a> Word for &'a String {
    type Said = Rest<'a>;

    fn said(self, _: &World) -> Result<Rest<'a>, Error> {
        if self.contains('\n') {
            return Err(Error::NoCommand);
        }
        Ok(Rest(self))
    }
}

/// A space and the text, unless that is empty.
pub(crate) struct Rest<'a>(&'a str);

impl fmt::Display for Rest<'_> {
    fn fmt(&self, f: &mut fmt::Formatter<'_>) -> fmt::Result {
        let space = if self.0.is_empty() { "" } else { " " };
        write!(f, "{space}{}", self.0)
    }
}

impl<'a> Word for &'a Vec<u8> {
    type Said = Digits<'a>;

    fn said(self, _: &World) -> Result<Digits<'a>, Error> {
        Ok(Digits(self))
    }
}

/// A space and the bytes, unless there are none.
pub(crate) struct Digits<'a>(&'a [u8]);

impl fmt::Display for Digits<'_> {
    fn fmt(&self, f: &mut fmt::Formatter<'_>) -> fmt::Result {
        if !self.0.is_empty() {
            f.write_str(" ")?;
        }
        self.0.iter().try_for_each(|byte| write!(f, "{byte:02x}"))
    }
}

impl Word for &Vec<Name> {
    type Said = String;

    fn said(self, world: &World) -> Result<String, Error> {
        words(self.iter().map(|name| (name, "")), world)
    }
}

impl Word for &Vec<(Name, bool)> {
    type Said = String;

    fn said(self, world: &World) -> Result<String, Error> {
        words(self.iter().map(|(name, is_constant)| (name, if *is_constant { "!" } else { "" })), world)
    }
}

fn words<'a>(names: impl Iterator<Item = (&'a Name, &'static str)>, world: &World) -> Result<String, Error> {
    let mut text = Text(String::new());
    for (name, flag) in names {
        let name = name.said(world)?;
        write!(text, " {flag}{name}").map_err(|_| Error::OutOfMemory)?;
    }
    Ok(text.0)
}

/// A text that grows with fallible allocations.
struct Text(String);

impl Write for Text {
    fn write_str(&mut self, text: &str) -> fmt::Result {
        self.0.try_reserve(text.len()).map_err(|_| fmt::Error)?;
        self.0.push_str(text);
        Ok(())
    }
}

/// Formats a text; fails if an allocation fails.
pub(crate) fn written(arguments: fmt::Arguments<'_>) -> Result<String, Error> {
    let mut text = Text(String::new());
    text.write_fmt(arguments).map_err(|_| Error::OutOfMemory)?;
    Ok(text.0)
}
