//! What numbers mean: written by `tools/host_declarations` from the lines of `crates/rhai_host`.

/// How a call ended.
#[derive(Clone, Copy, Debug, PartialEq, Eq)]
#[repr(u32)]
pub enum Status {
    /// The command is done.
    Done = 0,
    /// An allocation failed, and nothing has changed.
    OutOfMemory = 1,
    /// No world is open.
    Closed = 2,
    /// The input is not a command.
    NoCommand = 3,
    /// An allocation for the command's operands failed, and nothing has changed.
    NoRoom = 4,
}

impl Status {
    #[inline]
    pub fn of(number: u32) -> Option<Status> {
        Some(match number {
            0 => Status::Done,
            1 => Status::OutOfMemory,
            2 => Status::Closed,
            3 => Status::NoCommand,
            4 => Status::NoRoom,
            _ => return None,
        })
    }
}

/// What an answer is.
#[derive(Clone, Copy, Debug, PartialEq, Eq)]
#[repr(u32)]
pub enum Kind {
    Done = 0,
    Bool = 1,
    Int = 2,
    Text = 3,
    Bytes = 4,
    Pair = 5,
    Nothing = 6,
    Refused = 7,
}

impl Kind {
    #[inline]
    pub fn of(number: u32) -> Option<Kind> {
        Some(match number {
            0 => Kind::Done,
            1 => Kind::Bool,
            2 => Kind::Int,
            3 => Kind::Text,
            4 => Kind::Bytes,
            5 => Kind::Pair,
            6 => Kind::Nothing,
            7 => Kind::Refused,
            _ => return None,
        })
    }
}

/// Which refusal.
#[derive(Clone, Copy, Debug, PartialEq, Eq)]
#[repr(u32)]
pub enum Reason {
    NoValue = 0,
    SameValue = 1,
    NoEntry = 2,
    EmptyScope = 3,
    ConstantEntry = 4,
    SharedEntry = 5,
    NoMark = 6,
    WrongSource = 7,
    BitPlace = 8,
    BytePlace = 9,
    NoBuiltin = 10,
    NotHashable = 11,
    Mismatch = 12,
    ErrorMismatchDataType = 13,
    ErrorDataRace = 14,
    ErrorArithmetic = 15,
    ErrorDataTooLarge = 16,
    ErrorMemory = 17,
}

impl Reason {
    #[inline]
    pub fn of(number: u32) -> Option<Reason> {
        Some(match number {
            0 => Reason::NoValue,
            1 => Reason::SameValue,
            2 => Reason::NoEntry,
            3 => Reason::EmptyScope,
            4 => Reason::ConstantEntry,
            5 => Reason::SharedEntry,
            6 => Reason::NoMark,
            7 => Reason::WrongSource,
            8 => Reason::BitPlace,
            9 => Reason::BytePlace,
            10 => Reason::NoBuiltin,
            11 => Reason::NotHashable,
            12 => Reason::Mismatch,
            13 => Reason::ErrorMismatchDataType,
            14 => Reason::ErrorDataRace,
            15 => Reason::ErrorArithmetic,
            16 => Reason::ErrorDataTooLarge,
            17 => Reason::ErrorMemory,
            _ => return None,
        })
    }
}

/// Why an arithmetic operation has no answer.
#[derive(Clone, Copy, Debug, PartialEq, Eq)]
#[repr(u32)]
pub enum Arithmetic {
    Overflow = 0,
    DivisionByZero = 1,
    NegativePower = 2,
    PowerTooLarge = 3,
}

impl Arithmetic {
    #[inline]
    pub fn of(number: u32) -> Option<Arithmetic> {
        Some(match number {
            0 => Arithmetic::Overflow,
            1 => Arithmetic::DivisionByZero,
            2 => Arithmetic::NegativePower,
            3 => Arithmetic::PowerTooLarge,
            _ => return None,
        })
    }
}

/// Which limit a value would grow past.
#[derive(Clone, Copy, Debug, PartialEq, Eq)]
#[repr(u32)]
pub enum Size {
    Text = 0,
    Items = 1,
}

impl Size {
    #[inline]
    pub fn of(number: u32) -> Option<Size> {
        Some(match number {
            0 => Size::Text,
            1 => Size::Items,
            _ => return None,
        })
    }
}

/// How a script ended.
#[derive(Clone, Copy, Debug, PartialEq, Eq)]
#[repr(u32)]
pub enum End {
    Done = 0,
    Syntax = 1,
    Fault = 2,
}

impl End {
    #[inline]
    pub fn of(number: u32) -> Option<End> {
        Some(match number {
            0 => End::Done,
            1 => End::Syntax,
            2 => End::Fault,
            _ => return None,
        })
    }
}

/// The types.
#[derive(Clone, Copy, Debug, PartialEq, Eq)]
#[repr(u32)]
pub enum Type {
    Unit = 0,
    Bool = 1,
    Char = 2,
    Int = 3,
    U8 = 4,
    U16 = 5,
    U32 = 6,
    U64 = 7,
    U128 = 8,
    I8 = 9,
    I16 = 10,
    I32 = 11,
    I128 = 12,
    String = 13,
    ImmutableString = 14,
    Array = 15,
    Blob = 16,
    Map = 17,
    FnPtr = 18,
    ExclusiveRange = 19,
    InclusiveRange = 20,
    Dynamic = 21,
    Shared = 22,
}

impl Type {
    pub const COUNT: usize = 23;
}

/// The operators.
#[derive(Clone, Copy, Debug, PartialEq, Eq)]
#[repr(u32)]
pub enum Operator {
    Plus = 0,
    Minus = 1,
    Multiply = 2,
    Divide = 3,
    Modulo = 4,
    PowerOf = 5,
    RightShift = 6,
    LeftShift = 7,
    Ampersand = 8,
    Pipe = 9,
    XOr = 10,
    EqualsTo = 11,
    NotEqualsTo = 12,
    GreaterThan = 13,
    GreaterThanEqualsTo = 14,
    LessThan = 15,
    LessThanEqualsTo = 16,
    ExclusiveRange = 17,
    InclusiveRange = 18,
    Equals = 19,
    PlusAssign = 20,
    MinusAssign = 21,
    MultiplyAssign = 22,
    DivideAssign = 23,
    ModuloAssign = 24,
    PowerOfAssign = 25,
    RightShiftAssign = 26,
    LeftShiftAssign = 27,
    AndAssign = 28,
    OrAssign = 29,
    XOrAssign = 30,
}

impl Operator {
    pub const COUNT: usize = 31;
}
