//! The five released files of rhai 1.27.0 with which this port is compared, without the rest of the crate.
//!
//! `beside/setup` puts them, unchanged, into `../build`. Everything in `src` is the port's authors' own: what these files import, as wide as
//! the original.
#![allow(dead_code, unused_imports, unused_macros)]
#![allow(mismatched_lifetime_syntaxes)]

#[macro_use]
mod reify;

mod engine;
mod errors;
mod fnptr;
mod smart;
mod strings;
mod thin;

#[path = "."]
pub mod types {
    //! Released: dynamic.rs, variant.rs, scope.rs. Ours: token.
    #[path = "../build/dynamic.rs"]
    pub mod dynamic;
    #[path = "../build/scope.rs"]
    pub mod scope;
    #[path = "token.rs"]
    pub mod token;
    #[path = "../build/variant.rs"]
    pub mod variant;

    pub use dynamic::Dynamic;
    pub use scope::Scope;
    pub use token::Token;
    pub use variant::Variant;
}

#[path = "."]
pub mod eval {
    //! Released: target.rs.
    #[path = "../build/target.rs"]
    pub mod target;
    pub use target::{calc_index, calc_offset_len, Target};
}

#[path = "."]
pub mod func {
    //! Released: builtin.rs. Ours: native.
    #[path = "../build/builtin.rs"]
    pub mod builtin;
    #[path = "native.rs"]
    pub mod native;

    pub use builtin::{get_builtin_binary_op_fn, get_builtin_op_assignment_fn};
    pub use native::{locked_read, locked_write, FnBuiltin, FnCallArgs, SendSync};
}

pub mod hooks;
pub mod packages;

/// Integer type in the default configuration.
pub type INT = i64;
pub type Array = Vec<Dynamic>;
pub type Blob = Vec<u8>;
pub type Map = std::collections::BTreeMap<Identifier, Dynamic>;
pub type ExclusiveRange = std::ops::Range<INT>;
pub type InclusiveRange = std::ops::RangeInclusive<INT>;
/// Not `sync`: plain reference counting and a `RefCell`, as in the released crate.
pub type Shared<T> = std::rc::Rc<T>;
pub type Locked<T> = std::cell::RefCell<T>;
/// The released crate uses `smallvec::SmallVec<[T; 3]>` here.
pub type StaticVec<T> = smallvec::SmallVec<[T; 3]>;
pub type Identifier = SmartString;

pub use engine::{Engine, NativeCallContext, Position};
pub use errors::EvalAltResult;
pub use eval::{calc_index, calc_offset_len, Target};
pub use fnptr::FnPtr;
pub use func::{get_builtin_binary_op_fn, get_builtin_op_assignment_fn, FnBuiltin};
pub use smart::SmartString;
pub use strings::ImmutableString;
pub use thin::ThinVec;
pub use types::dynamic::{AccessMode, DynamicReadLock, DynamicWriteLock, Tag, Union};
pub use types::{Dynamic, Scope, Token, Variant};

pub use errors::EvalAltResult as ERR;
pub type RhaiError = Box<EvalAltResult>;
pub type RhaiResultOf<T> = Result<T, RhaiError>;
pub type RhaiResult = RhaiResultOf<Dynamic>;

#[inline(always)]
pub(crate) const fn new_smart_string() -> SmartString {
    SmartString::new()
}

const _: () = assert!(std::mem::size_of::<Dynamic>() == 16);
const _: () = assert!(std::mem::size_of::<ImmutableString>() == 8);
const _: () = assert!(std::mem::size_of::<SmartString>() == 24);
const _: () = assert!(std::mem::size_of::<ThinVec<Dynamic>>() == 8);
