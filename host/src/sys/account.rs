//! How much memory each world holds, and how much it may hold.
use std::cell::Cell;
use std::marker::PhantomData;
use std::num::NonZeroUsize;
use std::ptr::null;

/// The memory of a world: how many bytes it holds, the most that it held, and how many it may hold.
#[repr(C)]
pub struct Account {
    held: Cell<usize>,
    most: Cell<usize>,
    cap: Cell<usize>,
}

thread_local! {
    /// The account of the call on this thread; null if there is none.
    static CURRENT: Cell<*const Account> = const { Cell::new(null()) };
}

impl Account {
    /// Makes an account that holds nothing, without a limit.
    pub const fn new() -> Account {
        Account { held: Cell::new(0), most: Cell::new(0), cap: Cell::new(usize::MAX) }
    }

    /// Limits what may be held. What is already held is kept.
    pub fn set_cap(&self, bytes: Option<NonZeroUsize>) {
        self.cap.set(bytes.map_or(usize::MAX, NonZeroUsize::get));
    }

    /// Returns how many bytes are held.
    pub fn held(&self) -> usize {
        self.held.get()
    }

    /// Returns the most bytes that were held at any time.
    pub fn most(&self) -> usize {
        self.most.get()
    }

    /// Counts allocations here, until the guard is dropped: then the previous account is the
    /// current one again.
    #[inline]
    pub fn enter(&self) -> Entered<'_> {
        Entered { before: CURRENT.replace(self), account: PhantomData }
    }

    fn has_room(&self, bytes: usize) -> bool {
        bytes <= self.cap.get().saturating_sub(self.held.get())
    }

    fn take(&self, bytes: usize) {
        let held = self.held.get().saturating_add(bytes);
        self.held.set(held);
        self.most.set(self.most.get().max(held));
    }

    fn give(&self, bytes: usize) {
        self.held.set(self.held.get().saturating_sub(bytes));
    }
}

/// While it exists, an account is the current one of its thread.
pub struct Entered<'a> {
    before: *const Account,
    account: PhantomData<&'a Account>,
}

impl Drop for Entered<'_> {
    #[inline]
    fn drop(&mut self) {
        CURRENT.set(self.before);
    }
}

/// Whether the current account may hold this many bytes more; without one, any number.
#[inline]
pub fn has_room(bytes: usize) -> bool {
    current(|account| account.has_room(bytes)).unwrap_or(true)
}

/// Counts a block that was allocated.
#[inline]
pub fn take(bytes: usize) {
    current(|account| account.take(bytes));
}

/// Counts a block that is freed.
#[inline]
pub fn give(bytes: usize) {
    current(|account| account.give(bytes));
}

#[inline]
fn current<T>(work: impl FnOnce(&Account) -> T) -> Option<T> {
    // SAFETY: it is null or an account that a guard of this thread borrows. Each guard restores
    // what was there before it, and guards end in reverse order, also during a panic.
    unsafe { CURRENT.get().as_ref() }.map(work)
}

#[cfg(test)]
mod tests {
    use super::{give, has_room, take, Account};
    use std::num::NonZeroUsize;

    #[test]
    fn each_guard_puts_back_the_account_before() {
        let (outer, inner) = (Account::new(), Account::new());
        take(1_000);
        {
            let _outer = outer.enter();
            take(10);
            {
                let _inner = inner.enter();
                take(7);
            }
            take(5);
        }
        take(1_000);
        assert_eq!((outer.held(), inner.held()), (15, 7));
    }

    #[test]
    fn a_panic_puts_it_back_too() {
        let account = Account::new();
        let panicked = std::panic::catch_unwind(|| {
            let inside = Account::new();
            let _inside = inside.enter();
            panic!("as it should");
        });
        assert!(panicked.is_err());
        take(3);
        let _account = account.enter();
        take(4);
        assert_eq!(account.held(), 4);
    }

    #[test]
    fn a_cap_is_on_what_is_held() {
        let account = Account::new();
        account.set_cap(NonZeroUsize::new(100));
        let _entered = account.enter();
        assert!(has_room(100) && !has_room(101) && !has_room(usize::MAX));
        take(60);
        assert!(has_room(40) && !has_room(41));
        give(20);
        assert!(has_room(60) && !has_room(61));
        account.set_cap(NonZeroUsize::new(1));
        assert!(has_room(0) && !has_room(1));
        account.set_cap(None);
        assert!(has_room(usize::MAX - 40));
        assert_eq!((account.held(), account.most()), (40, 60));
    }

    #[test]
    fn threads_have_accounts_of_their_own() {
        let account = Account::new();
        let _entered = account.enter();
        std::thread::scope(|scope| scope.spawn(|| take(9)).join()).unwrap();
        assert_eq!(account.held(), 0);
    }
}
