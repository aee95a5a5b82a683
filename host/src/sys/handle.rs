//! The Rust side of a world.
use super::account::{Account, Entered};
use super::exports;
use std::cell::UnsafeCell;

/// A world, or none, and the account of its memory. All zeros is none. Only the library reads the
/// contents, and only during a call.
///
/// It stays on its thread: it isn't `Sync` because of its cells, and isn't `Send` because of its
/// address.
#[repr(C)]
pub struct Handle {
    held: UnsafeCell<Held>,
    account: Account,
}

#[repr(C)]
struct Held {
    is_open: bool,
    at: *mut u8,
}

impl Handle {
    pub const fn closed() -> Handle {
        Handle { held: UnsafeCell::new(Held { is_open: false, at: std::ptr::null_mut() }), account: Account::new() }
    }

    /// Whether the library's handle has the size that this crate gives it.
    pub fn fits() -> bool {
        exports::handle_size() == size_of::<Held>() && exports::handle_align() == align_of::<Held>()
    }

    /// Gives the library its part for one call, and counts what the call allocates here.
    #[inline]
    pub(super) fn lent(&self) -> Lent<'_> {
        Lent { at: self.held.get().cast(), _entered: self.account.enter() }
    }

    pub fn account(&self) -> &Account {
        &self.account
    }
}

/// A handle while the library uses it.
pub(super) struct Lent<'a> {
    at: *mut Handle,
    _entered: Entered<'a>,
}

impl Lent<'_> {
    /// Returns its address.
    #[inline]
    pub(super) fn at(&self) -> *mut Handle {
        self.at
    }
}
