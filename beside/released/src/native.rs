//! Replaces `func::native`: locks, and the type of built-in operator functions.

use crate::{Dynamic, Locked, NativeCallContext, RhaiResult, Shared};

pub trait SendSync {}
impl<T> SendSync for T {}

pub type FnCallArgs<'a> = [&'a mut Dynamic];
/// The function, and whether it needs a context (for size limits).
pub type FnBuiltin = (fn(Option<NativeCallContext>, &mut FnCallArgs) -> RhaiResult, bool);

pub type LockGuard<'a, T> = std::cell::Ref<'a, T>;
pub type LockGuardMut<'a, T> = std::cell::RefMut<'a, T>;

#[inline(always)]
#[must_use]
pub fn locked_read<T>(value: &Locked<T>) -> Option<LockGuard<'_, T>> {
    value.try_borrow().ok()
}
#[inline(always)]
#[must_use]
pub fn locked_write<T>(value: &Locked<T>) -> Option<LockGuardMut<'_, T>> {
    value.try_borrow_mut().ok()
}
#[inline(always)]
pub fn shared_try_take<T>(value: Shared<T>) -> Result<T, Shared<T>> {
    Shared::try_unwrap(value)
}
