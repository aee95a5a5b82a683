//! Results of calls as Rust values.
use crate::answer::{Answer, ArithmeticFault, Refusal, SizeKind};
use crate::error::{done, Error};
use crate::sys::numbers::{Arithmetic, Kind, Reason, Size, Status};
use crate::sys::{self, Told};
use crate::value::Value;
use crate::world::World;

/// Whether the call is done and its result is of this kind.
#[inline]
fn is(kind: Kind, status: u32, told: &Told) -> bool {
    status == Status::Done as u32 && told.kind == kind as u32
}

impl World {
    #[inline]
    pub(crate) fn answer(&self, status: u32, told: &Told) -> Result<Answer, Error> {
        done(status)?;
        Ok(match Kind::of(told.kind).ok_or(Error::Unexpected)? {
            Kind::Done => Answer::Done,
            Kind::Bool => Answer::Bool(told.low != 0),
            Kind::Int => Answer::Int(wide(told)),
            Kind::Text => Answer::Text(self.text_of(false, told.low)?),
            Kind::Bytes => Answer::Bytes(self.bytes_of(false, told.low)?),
            Kind::Pair => Answer::Pair(size(told.low)?, size(told.high)?),
            Kind::Nothing => Answer::Nothing,
            Kind::Refused => return Err(self.failure(status, told)),
        })
    }

    /// Fails unless the result is of this kind.
    #[inline]
    fn expect(&self, kind: Kind, status: u32, told: &Told) -> Result<(), Error> {
        if is(kind, status, told) {
            return Ok(());
        }
        Err(self.failure(status, told))
    }

    #[inline]
    pub(crate) fn done(&self, status: u32, told: &Told) -> Result<(), Error> {
        self.expect(Kind::Done, status, told)
    }

    #[inline]
    pub(crate) fn truth(&self, status: u32, told: &Told) -> Result<bool, Error> {
        self.expect(Kind::Bool, status, told)?;
        Ok(told.low != 0)
    }

    #[inline]
    pub(crate) fn int(&self, status: u32, told: &Told) -> Result<i64, Error> {
        self.expect(Kind::Int, status, told)?;
        narrow(told).ok_or(Error::Unexpected)
    }

    pub(crate) fn tag_of(&self, status: u32, told: &Told) -> Result<i32, Error> {
        i32::try_from(self.int(status, told)?).map_err(|_| Error::Unexpected)
    }

    #[inline]
    pub(crate) fn count(&self, status: u32, told: &Told) -> Result<usize, Error> {
        self.expect(Kind::Int, status, told)?;
        usize::try_from(wide(told)).map_err(|_| Error::Unexpected)
    }

    pub(crate) fn pair(&self, status: u32, told: &Told) -> Result<(usize, usize), Error> {
        self.expect(Kind::Pair, status, told)?;
        Ok((size(told.low)?, size(told.high)?))
    }

    pub(crate) fn text(&self, status: u32, told: &Told) -> Result<String, Error> {
        self.expect(Kind::Text, status, told)?;
        self.text_of(false, told.low)
    }

    /// Returns the value of a script.
    #[inline]
    pub(crate) fn script_value(&self, status: u32, told: &Told) -> Result<Value, Error> {
        match self.answer(status, told)? {
            Answer::Done => Ok(Value::Unit),
            Answer::Bool(truth) => Ok(Value::Bool(truth)),
            Answer::Int(n) => i64::try_from(n).map(Value::Int).map_err(|_| Error::Unexpected),
            Answer::Bytes(bytes) => Value::from_bytes(&bytes),
            Answer::Text(_) | Answer::Pair(_, _) | Answer::Nothing => Err(Error::Unexpected),
        }
    }

    pub(crate) fn bytes(&self, status: u32, told: &Told) -> Result<Vec<u8>, Error> {
        self.expect(Kind::Bytes, status, told)?;
        self.bytes_of(false, told.low)
    }

    /// Returns the only character of a text.
    pub(crate) fn character(&self, status: u32, told: &Told) -> Result<char, Error> {
        self.expect(Kind::Text, status, told)?;
        let mut room = [0; 4];
        let count = sys::answer(&self.handle, false, &mut room);
        let text = room.get(..count).and_then(|bytes| std::str::from_utf8(bytes).ok()).ok_or(Error::Unexpected)?;
        let mut characters = text.chars();
        match (characters.next(), characters.next()) {
            (Some(character), None) => Ok(character),
            (Some(_), Some(_)) | (None, _) => Err(Error::Unexpected),
        }
    }

    pub(crate) fn truth_if_any(&self, status: u32, told: &Told) -> Result<Option<bool>, Error> {
        if is(Kind::Nothing, status, told) {
            return Ok(None);
        }
        self.truth(status, told).map(Some)
    }

    pub(crate) fn count_if_any(&self, status: u32, told: &Told) -> Result<Option<usize>, Error> {
        if is(Kind::Nothing, status, told) {
            return Ok(None);
        }
        self.count(status, told).map(Some)
    }

    pub(crate) fn done_if_any(&self, status: u32, told: &Told) -> Result<bool, Error> {
        if is(Kind::Nothing, status, told) {
            return Ok(false);
        }
        self.done(status, told).map(|()| true)
    }

    /// Replaces the contents of `text` with the value at the hand position, formatted as by `show`.
    /// It reuses the capacity of `text`, and leaves it empty after an error.
    pub fn show_into(&self, i: usize, text: &mut String) -> Result<(), Error> {
        let mut told = Told::default();
        let status = sys::show(&self.handle, i, &mut told);
        self.text_into(status, &told, text)
    }

    /// Replaces the contents of `text` with the value at the hand position, formatted as by
    /// `debug`. It reuses the capacity of `text`, and leaves it empty after an error.
    pub fn debug_into(&self, i: usize, text: &mut String) -> Result<(), Error> {
        let mut told = Told::default();
        let status = sys::debug(&self.handle, i, &mut told);
        self.text_into(status, &told, text)
    }

    fn text_into(&self, status: u32, told: &Told, text: &mut String) -> Result<(), Error> {
        if let Err(error) = self.expect(Kind::Text, status, told) {
            text.clear();
            return Err(error);
        }
        let mut bytes = std::mem::take(text).into_bytes();
        let filled = self.fill(false, told.low, &mut bytes);
        *text = String::from_utf8(bytes).map_err(|_| Error::Unexpected)?;
        filled
    }

    /// Replaces the contents of `room` with the bytes of the last result, whose length is given.
    /// Leaves `room` empty on failure.
    fn fill(&self, second: bool, length: u64, room: &mut Vec<u8>) -> Result<(), Error> {
        let length = size(length)?;
        if room.len() < length {
            if let Err(error) = room.try_reserve(length - room.len()) {
                room.clear();
                return Err(error.into());
            }
            room.resize(length, 0);
        }
        room.truncate(length);
        if sys::answer(&self.handle, second, room) == length {
            return Ok(());
        }
        room.clear();
        Err(Error::Unexpected)
    }

    fn bytes_of(&self, second: bool, length: u64) -> Result<Vec<u8>, Error> {
        let mut bytes = Vec::new();
        self.fill(second, length, &mut bytes)?;
        Ok(bytes)
    }

    pub(crate) fn text_of(&self, second: bool, length: u64) -> Result<String, Error> {
        String::from_utf8(self.bytes_of(second, length)?).map_err(|_| Error::Unexpected)
    }

    /// Why a call didn't return what it promises for a done call.
    #[cold]
    fn failure(&self, status: u32, told: &Told) -> Error {
        if let Err(error) = done(status) {
            return error;
        }
        if told.kind != Kind::Refused as u32 {
            return Error::Unexpected;
        }
        match self.refusal(told) {
            Ok(why) => Error::Refused(why),
            Err(error) => error,
        }
    }

    fn refusal(&self, told: &Told) -> Result<Refusal, Error> {
        Ok(match Reason::of(told.reason).ok_or(Error::Unexpected)? {
            Reason::NoValue => Refusal::NoValue,
            Reason::SameValue => Refusal::SameValue,
            Reason::NoEntry => Refusal::NoEntry,
            Reason::EmptyScope => Refusal::EmptyScope,
            Reason::ConstantEntry => Refusal::ConstantEntry,
            Reason::SharedEntry => Refusal::SharedEntry,
            Reason::NoMark => Refusal::NoMark,
            Reason::WrongSource => Refusal::WrongSource,
            Reason::BitPlace => Refusal::BitPlace,
            Reason::BytePlace => Refusal::BytePlace,
            Reason::NoBuiltin => Refusal::NoBuiltin,
            Reason::NotHashable => Refusal::NotHashable,
            Reason::Mismatch => Refusal::Mismatch(self.text_of(false, told.low)?),
            Reason::ErrorMismatchDataType => Refusal::WrongType(self.text_of(false, told.low)?, self.text_of(true, told.high)?),
            Reason::ErrorDataRace => Refusal::DataRace,
            Reason::ErrorArithmetic => Refusal::Arithmetic(arithmetic_fault(told.low)?),
            Reason::ErrorDataTooLarge => Refusal::TooLarge(size_kind(told.low)?),
            Reason::ErrorMemory => return Err(Error::OutOfMemory),
        })
    }
}

fn arithmetic_fault(number: u64) -> Result<ArithmeticFault, Error> {
    let number = u32::try_from(number).ok().and_then(Arithmetic::of).ok_or(Error::Unexpected)?;
    Ok(match number {
        Arithmetic::Overflow => ArithmeticFault::Overflow,
        Arithmetic::DivisionByZero => ArithmeticFault::DivisionByZero,
        Arithmetic::NegativePower => ArithmeticFault::NegativePower,
        Arithmetic::PowerTooLarge => ArithmeticFault::PowerTooLarge,
    })
}

fn size_kind(number: u64) -> Result<SizeKind, Error> {
    let number = u32::try_from(number).ok().and_then(Size::of).ok_or(Error::Unexpected)?;
    Ok(match number {
        Size::Text => SizeKind::Text,
        Size::Items => SizeKind::Items,
    })
}

/// Returns the number whose two's complement is these two words.
#[inline]
fn wide(told: &Told) -> i128 {
    match narrow(told) {
        Some(n) => i128::from(n),
        None => (u128::from(told.low) | u128::from(told.high) << 64) as i128,
    }
}

/// As `wide`, for results that fit 64 bits.
#[inline]
fn narrow(told: &Told) -> Option<i64> {
    let low = told.low as i64;
    (told.high == (low >> 63) as u64).then_some(low)
}

fn size(word: u64) -> Result<usize, Error> {
    usize::try_from(word).map_err(|_| Error::Unexpected)
}
