//! Copies values out of a world, through their hash bytes.
use super::builder::Builder;
use super::head::{Head, Leaf};
use super::Value;
use crate::answer::Refusal;
use crate::error::Error;
use crate::world::World;

impl World {
    /// Returns the value at the hand position, without its holders; `None` if it contains itself.
    pub fn value(&self, i: usize) -> Result<Option<Value>, Error> {
        match self.hash(i) {
            Ok(bytes) => Value::from_bytes(&bytes).map(Some),
            Err(Error::Refused(Refusal::NotHashable)) => Ok(None),
            Err(error) => Err(error),
        }
    }
}

impl Value {
    /// Returns the value with these hash bytes.
    pub(crate) fn from_bytes(bytes: &[u8]) -> Result<Value, Error> {
        Reader { bytes }.value()
    }
}

/// Hash bytes being read.
pub(crate) struct Reader<'a> {
    pub(crate) bytes: &'a [u8],
}

impl<'a> Reader<'a> {
    fn value(&mut self) -> Result<Value, Error> {
        let mut builder = Builder::default();
        while !builder.is_whole() {
            let key = if builder.wants_key() { self.text() } else { Some("") };
            let (key, head) = key.and_then(|key| Some((key, self.head()?))).ok_or(Error::Unexpected)?;
            builder.add(key, head)?;
        }
        builder.whole().ok_or(Error::Unexpected)
    }

    fn head(&mut self) -> Option<Head<'a>> {
        let kind = self.byte()?;
        self.head_of(kind)
    }

    /// Reads the rest of a head, behind the byte of its kind.
    pub(crate) fn head_of(&mut self, kind: u8) -> Option<Head<'a>> {
        Some(Head::Leaf(match kind {
            0 => Leaf::Unit,
            1 => Leaf::Bool(self.byte()? != 0),
            2 => Leaf::Text(self.text()?),
            3 => Leaf::Char(char::from_u32(u32::from_le_bytes(self.array()?))?),
            4 => Leaf::Int(self.int()?),
            5 => return Some(Head::Array(self.count()?)),
            6 => Leaf::Blob(self.sized()?),
            7 => return Some(Head::Map(self.count()?)),
            8 => return Some(Head::FnPtr(self.text()?, self.count()?)),
            9 => self.host()?,
            _ => return None,
        }))
    }

    fn host(&mut self) -> Option<Leaf<'a>> {
        Some(match self.byte()? {
            0 => Leaf::U8(u8::from_le_bytes(self.array()?)),
            1 => Leaf::U16(u16::from_le_bytes(self.array()?)),
            2 => Leaf::U32(u32::from_le_bytes(self.array()?)),
            3 => Leaf::U64(u64::from_le_bytes(self.array()?)),
            4 => Leaf::U128(u128::from_le_bytes(self.array()?)),
            5 => Leaf::I8(i8::from_le_bytes(self.array()?)),
            6 => Leaf::I16(i16::from_le_bytes(self.array()?)),
            7 => Leaf::I32(i32::from_le_bytes(self.array()?)),
            8 => Leaf::I128(i128::from_le_bytes(self.array()?)),
            9 => Leaf::Range(self.int()?, self.int()?),
            10 => Leaf::RangeWithEnd(self.int()?, self.int()?),
            _ => return None,
        })
    }

    pub(crate) fn text(&mut self) -> Option<&'a str> {
        std::str::from_utf8(self.sized()?).ok()
    }

    fn sized(&mut self) -> Option<&'a [u8]> {
        let count = self.count()?;
        self.take(count)
    }

    fn int(&mut self) -> Option<i64> {
        Some(i64::from_le_bytes(self.array()?))
    }

    pub(crate) fn count(&mut self) -> Option<usize> {
        usize::try_from(u64::from_le_bytes(self.array()?)).ok()
    }

    pub(crate) fn byte(&mut self) -> Option<u8> {
        let [byte] = self.array()?;
        Some(byte)
    }

    pub(crate) fn array<const N: usize>(&mut self) -> Option<[u8; N]> {
        self.take(N)?.try_into().ok()
    }

    fn take(&mut self, count: usize) -> Option<&'a [u8]> {
        let (front, back) = self.bytes.split_at_checked(count)?;
        self.bytes = back;
        Some(front)
    }
}
