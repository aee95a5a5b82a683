//! Replaces `FnPtr`: a name and curried values (script body, kind and environment left out).

use crate::{Dynamic, ImmutableString, ThinVec};
use std::fmt;

#[derive(Clone, Copy, Debug)]
pub struct FnPtrType;

impl fmt::Display for FnPtrType {
    fn fmt(&self, f: &mut fmt::Formatter<'_>) -> fmt::Result {
        f.write_str("Fn")
    }
}

#[derive(Clone)]
pub struct FnPtr {
    pub(crate) name: ImmutableString,
    pub(crate) curry: ThinVec<Dynamic>,
    pub(crate) typ: FnPtrType,
}

impl FnPtr {
    #[must_use]
    pub fn new(name: impl Into<ImmutableString>, curry: Vec<Dynamic>) -> Self {
        Self { name: name.into(), curry: curry.into(), typ: FnPtrType }
    }
    #[inline(always)]
    #[must_use]
    pub fn fn_name(&self) -> &str {
        self.name.as_str()
    }
    #[inline(always)]
    #[must_use]
    pub fn curry(&self) -> &[Dynamic] {
        &self.curry
    }
    #[inline(always)]
    pub fn iter_curry_mut(&mut self) -> impl Iterator<Item = &mut Dynamic> {
        self.curry.iter_mut()
    }
}

impl fmt::Display for FnPtr {
    fn fmt(&self, f: &mut fmt::Formatter<'_>) -> fmt::Result {
        write!(f, "{}({})", self.typ, self.fn_name())
    }
}

impl fmt::Debug for FnPtr {
    fn fmt(&self, f: &mut fmt::Formatter<'_>) -> fmt::Result {
        write!(f, "{}({:?}", self.typ, self.fn_name())?;
        for c in &self.curry {
            write!(f, ", {c:?}")?;
        }
        f.write_str(")")
    }
}
