//! Types and operators.
use crate::sys::numbers;
use std::fmt;

/// An enum of numbers, those of the library, each with its word in a line.
macro_rules! words {
    ($(#[$outer:meta])* $name:ident { $($(#[$doc:meta])* $variant:ident = $word:literal,)* }) => {
        $(#[$outer])*
        #[derive(Clone, Copy, Debug, PartialEq, Eq, PartialOrd, Ord, Hash)]
        #[non_exhaustive]
        #[repr(u32)]
        pub enum $name { $($(#[$doc])* $variant = numbers::$name::$variant as u32,)* }

        const _: () = assert!($name::ALL.len() == numbers::$name::COUNT);

        impl $name {
            /// All of them, in order.
            pub const ALL: &'static [$name] = &[$($name::$variant,)*];
        }

        impl fmt::Display for $name {
            fn fmt(&self, f: &mut fmt::Formatter<'_>) -> fmt::Result {
                f.write_str(match self { $($name::$variant => $word,)* })
            }
        }
    };
}

words! {
    /// A type of values. It displays as lines write it.
    Type {
        /// `()`.
        Unit = "()",
        /// `bool`.
        Bool = "bool",
        /// `char`.
        Char = "char",
        /// `i64`.
        Int = "i64",
        /// `u8`.
        U8 = "u8",
        /// `u16`.
        U16 = "u16",
        /// `u32`.
        U32 = "u32",
        /// `u64`.
        U64 = "u64",
        /// `u128`.
        U128 = "u128",
        /// `i8`.
        I8 = "i8",
        /// `i16`.
        I16 = "i16",
        /// `i32`.
        I32 = "i32",
        /// `i128`.
        I128 = "i128",
        /// `String`, which no value holds.
        String = "String",
        /// A text.
        ImmutableString = "string",
        /// An array.
        Array = "array",
        /// A blob.
        Blob = "blob",
        /// A map.
        Map = "map",
        /// A function pointer.
        FnPtr = "Fn",
        /// A range, end excluded.
        ExclusiveRange = "range",
        /// A range, end included.
        InclusiveRange = "rangeeq",
        /// Any value.
        Dynamic = "Dynamic",
        /// A holder whose chain is stuck or closed in a loop.
        Shared = "<shared>",
    }
}

words! {
    /// An operator: twenty binary ones, then eleven that assign. It displays as its symbol.
    #[allow(missing_docs)]
    Operator {
        Plus = "+",
        Minus = "-",
        Multiply = "*",
        Divide = "/",
        Modulo = "%",
        PowerOf = "**",
        RightShift = ">>",
        LeftShift = "<<",
        Ampersand = "&",
        Pipe = "|",
        XOr = "^",
        EqualsTo = "==",
        NotEqualsTo = "!=",
        GreaterThan = ">",
        GreaterThanEqualsTo = ">=",
        LessThan = "<",
        LessThanEqualsTo = "<=",
        ExclusiveRange = "..",
        InclusiveRange = "..=",
        Equals = "=",
        PlusAssign = "+=",
        MinusAssign = "-=",
        MultiplyAssign = "*=",
        DivideAssign = "/=",
        ModuloAssign = "%=",
        PowerOfAssign = "**=",
        RightShiftAssign = ">>=",
        LeftShiftAssign = "<<=",
        AndAssign = "&=",
        OrAssign = "|=",
        XOrAssign = "^=",
    }
}
