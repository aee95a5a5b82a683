//! Replaces `Token`: the 20 binary and 11 assignment operators.

macro_rules! tokens {
    ($($name:ident $text:literal),* $(,)?) => {
        #[derive(Debug, Clone, Copy, PartialEq, Eq, Hash)]
        pub enum Token { $($name),* }

        impl Token {
            pub const ALL: &'static [Token] = &[$(Token::$name),*];
            #[must_use]
            pub const fn text(&self) -> &'static str {
                match self { $(Token::$name => $text),* }
            }
            #[must_use]
            pub fn parse(text: &str) -> Option<Token> {
                match text { $($text => Some(Token::$name),)* _ => None }
            }
        }
    };
}

tokens! {
    Plus "+", Minus "-", Multiply "*", Divide "/", Modulo "%", PowerOf "**",
    RightShift ">>", LeftShift "<<", Ampersand "&", Pipe "|", XOr "^",
    EqualsTo "==", NotEqualsTo "!=", GreaterThan ">", GreaterThanEqualsTo ">=",
    LessThan "<", LessThanEqualsTo "<=", ExclusiveRange "..", InclusiveRange "..=", Equals "=",
    PlusAssign "+=", MinusAssign "-=", MultiplyAssign "*=", DivideAssign "/=",
    ModuloAssign "%=", PowerOfAssign "**=", RightShiftAssign ">>=", LeftShiftAssign "<<=",
    AndAssign "&=", OrAssign "|=", XOrAssign "^=",
}
