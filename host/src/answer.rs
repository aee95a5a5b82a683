//! Answers and refusals.
use std::fmt;

/// The answer to a command.
#[derive(Clone, Debug, PartialEq, Eq, Hash)]
#[non_exhaustive]
#[repr(u8)]
pub enum Answer {
    /// The command is done, and there is no result.
    Done,
    /// Yes or no.
    Bool(bool),
    /// A number.
    Int(i128),
    /// A text.
    Text(String),
    /// Bytes.
    Bytes(Vec<u8>),
    /// Two numbers.
    Pair(usize, usize),
    /// The call has no result, as a search that finds nothing.
    Nothing,
}

/// Why an arithmetic operation has no result.
#[derive(Clone, Copy, Debug, PartialEq, Eq, Hash)]
#[non_exhaustive]
pub enum ArithmeticFault {
    /// The exact answer does not fit.
    Overflow,
    /// The divisor is 0.
    DivisionByZero,
    /// The exponent is below 0.
    NegativePower,
    /// The exponent is above 4294967295.
    PowerTooLarge,
}

/// Which limit a value would grow past.
#[derive(Clone, Copy, Debug, PartialEq, Eq, Hash)]
#[non_exhaustive]
pub enum SizeKind {
    /// The bytes of a text.
    Text,
    /// The items of an array, or the bytes of a blob.
    Items,
}

/// Why a command was refused. A refused command changes nothing.
#[derive(Clone, Debug, PartialEq, Eq, Hash)]
#[non_exhaustive]
pub enum Refusal {
    /// The hand has no value at this position, or fewer values than the command takes.
    NoValue,
    /// Two hand positions that must differ are the same.
    SameValue,
    /// The scope has no entry with the name.
    NoEntry,
    /// The scope has no entries.
    EmptyScope,
    /// The newest entry with the name is a constant.
    ConstantEntry,
    /// The newest entry with the name is a holder.
    SharedEntry,
    /// The list of marks has no mark at this position.
    NoMark,
    /// The value at the place is not a holder, or holds a type other than the one the command
    /// writes to.
    WrongSource,
    /// An int has no bit at this index.
    BitPlace,
    /// The blob has no byte at this index.
    BytePlace,
    /// The operator isn't built in for these two values.
    NoBuiltin,
    /// The value can't be hashed.
    NotHashable,
    /// The held value has another type; this is its name.
    Mismatch(String),
    /// A value has the wrong type: the name of the expected type, and the name of the actual one.
    WrongType(String, String),
    /// A shared value is in use.
    DataRace,
    /// An arithmetic operation has no result.
    Arithmetic(ArithmeticFault),
    /// A value would grow past its limit.
    TooLarge(SizeKind),
}

impl fmt::Display for Refusal {
    fn fmt(&self, f: &mut fmt::Formatter<'_>) -> fmt::Result {
        match self {
            Refusal::NoValue => f.write_str("no such value in the hand"),
            Refusal::SameValue => f.write_str("the two values are the same"),
            Refusal::NoEntry => f.write_str("no entry of the name"),
            Refusal::EmptyScope => f.write_str("no entry in the scope"),
            Refusal::ConstantEntry => f.write_str("the entry is a constant"),
            Refusal::SharedEntry => f.write_str("the entry is a holder"),
            Refusal::NoMark => f.write_str("no such mark"),
            Refusal::WrongSource => f.write_str("the place has another type"),
            Refusal::BitPlace => f.write_str("no int has this bit"),
            Refusal::BytePlace => f.write_str("the blob has no such byte"),
            Refusal::NoBuiltin => f.write_str("no built-in operator for the values"),
            Refusal::NotHashable => f.write_str("the value has no hash bytes"),
            Refusal::Mismatch(held) => write!(f, "the type that is held is {held}"),
            Refusal::WrongType(wanted, found) => write!(f, "{wanted} is wanted, and {found} is there"),
            Refusal::DataRace => f.write_str("a shared value is in use"),
            Refusal::Arithmetic(ArithmeticFault::Overflow) => f.write_str("the number does not fit"),
            Refusal::Arithmetic(ArithmeticFault::DivisionByZero) => f.write_str("the divisor is 0"),
            Refusal::Arithmetic(ArithmeticFault::NegativePower) => f.write_str("the exponent is below 0"),
            Refusal::Arithmetic(ArithmeticFault::PowerTooLarge) => f.write_str("the exponent is too large"),
            Refusal::TooLarge(SizeKind::Text) => f.write_str("the text is too long"),
            Refusal::TooLarge(SizeKind::Items) => f.write_str("too many items"),
        }
    }
}

impl std::error::Error for Refusal {}
