//! Types that are known when a command is executed.

use super::command::{Host, Kind};
use crate::ends::cast_here;
use crate::release::guarded;
use rhai::{hooks, Array, Blob, Dynamic, ExclusiveRange, FnPtr, ImmutableString, InclusiveRange, Map, Scope, Variant};
use std::any::TypeId;

/// Something that is done for a type.
pub trait ForType {
    type Answer;
    fn of<T: Variant + Clone>(self) -> Self::Answer;
}

/// Does something for the type of a kind; `None` for what can't be looked into.
pub fn for_kind<F: ForType>(kind: Kind, f: F) -> Option<F::Answer> {
    Some(match kind.0 {
        0 => f.of::<()>(),
        1 => f.of::<bool>(),
        2 => f.of::<char>(),
        3 => f.of::<i64>(),
        4 => f.of::<u8>(),
        5 => f.of::<u16>(),
        6 => f.of::<u32>(),
        7 => f.of::<u64>(),
        8 => f.of::<u128>(),
        9 => f.of::<i8>(),
        10 => f.of::<i16>(),
        11 => f.of::<i32>(),
        12 => f.of::<i128>(),
        13 => f.of::<String>(),
        14 => f.of::<ImmutableString>(),
        15 => f.of::<Array>(),
        16 => f.of::<Blob>(),
        17 => f.of::<Map>(),
        18 => f.of::<FnPtr>(),
        19 => f.of::<ExclusiveRange>(),
        20 => f.of::<InclusiveRange>(),
        21 => f.of::<Dynamic>(),
        _ => return None,
    })
}

pub fn host(Host(kind, n): Host) -> Dynamic {
    match kind {
        0 => Dynamic::from(n as u8),
        1 => Dynamic::from(n as u16),
        2 => Dynamic::from(n as u32),
        3 => Dynamic::from(n as u64),
        4 => Dynamic::from(n),
        5 => Dynamic::from(n as i8),
        6 => Dynamic::from(n as i16),
        7 => Dynamic::from(n as i32),
        _ => Dynamic::from(n as i128),
    }
}

/// The type itself.
pub struct Id;

impl ForType for Id {
    type Answer = TypeId;
    fn of<T: Variant + Clone>(self) -> TypeId {
        TypeId::of::<T>()
    }
}

/// Whether a value is of the type; nothing where that panics.
pub struct IsOf<'v>(pub &'v Dynamic);

impl ForType for IsOf<'_> {
    type Answer = Option<bool>;
    fn of<T: Variant + Clone>(self) -> Option<bool> {
        guarded(|| self.0.is::<T>())
    }
}

/// What a value is as one of the type.
pub struct CastOf<'v>(pub &'v Dynamic);

impl ForType for CastOf<'_> {
    type Answer = Option<Dynamic>;
    fn of<T: Variant + Clone>(self) -> Option<Dynamic> {
        guarded(|| cast_here::<T>(self.0)).flatten()
    }
}

/// What the last entry of a name is as one of the type.
pub struct ValueOf<'s>(pub &'s Scope<'static>, pub &'s str);

impl ForType for ValueOf<'_> {
    type Answer = Option<Dynamic>;
    fn of<T: Variant + Clone>(self) -> Option<Dynamic> {
        guarded(|| self.0.get_value::<T>(self.1).map(Dynamic::from)).flatten()
    }
}

/// The same by reference, copied.
pub struct RefOf<'s>(pub &'s Scope<'static>, pub &'s str);

impl ForType for RefOf<'_> {
    type Answer = Option<Dynamic>;
    fn of<T: Variant + Clone>(self) -> Option<Dynamic> {
        self.0.get_value_ref::<T>(self.1).map(|x| Dynamic::from(x.clone()))
    }
}

/// Takes the last entry of a name out, as one of the type.
pub struct RemovalOf<'s>(pub &'s mut Scope<'static>, pub &'s str);

impl ForType for RemovalOf<'_> {
    type Answer = Option<Dynamic>;
    fn of<T: Variant + Clone>(self) -> Option<Dynamic> {
        self.0.remove::<T>(self.1).map(Dynamic::from)
    }
}

/// Writes over an int that a value itself is.
pub fn own_int(v: &mut Dynamic) -> Option<&mut i64> {
    hooks::downcast_mut::<i64>(v)
}
