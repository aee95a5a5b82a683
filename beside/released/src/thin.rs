//! Replaces `thin_vec::ThinVec`: a vector of one word, which points to a block of its length, its capacity and its items.

use std::alloc::{alloc, dealloc, handle_alloc_error, realloc, Layout};
use std::fmt;
use std::marker::PhantomData;
use std::mem::{align_of, size_of, ManuallyDrop};
use std::ops::{Deref, DerefMut};
use std::ptr::{self, NonNull};
use std::slice;

#[repr(C)]
struct Head {
    len: usize,
    room: usize,
}

/// The head of all vectors without capacity. It is never written.
static EMPTY: Head = Head { len: 0, room: 0 };

pub struct ThinVec<T> {
    head: NonNull<Head>,
    items: PhantomData<T>,
}

const _: () = assert!(size_of::<ThinVec<u64>>() == 8);

impl<T> ThinVec<T> {
    #[inline]
    #[must_use]
    pub const fn new() -> Self {
        const { assert!(align_of::<T>() <= align_of::<Head>()) };
        // SAFETY: a reference to a static is no null pointer.
        let head = unsafe { NonNull::new_unchecked(ptr::addr_of!(EMPTY).cast_mut()) };
        Self { head, items: PhantomData }
    }

    #[must_use]
    pub fn with_capacity(room: usize) -> Self {
        let mut items = Self::new();
        items.reserve(room);
        items
    }

    fn layout(room: usize) -> Layout {
        let size = room.checked_mul(size_of::<T>()).and_then(|n| n.checked_add(size_of::<Head>())).expect("a size");
        Layout::from_size_align(size, align_of::<Head>()).expect("a size")
    }

    #[inline]
    fn head(&self) -> &Head {
        // SAFETY: the head is the static one or that of our own block, which both are initialized and live.
        unsafe { self.head.as_ref() }
    }

    #[inline]
    fn start(&self) -> *mut T {
        // SAFETY: the items of a block follow its head; without capacity this is one past the head.
        unsafe { self.head.as_ptr().add(1).cast() }
    }

    /// Sets the length. The caller guarantees that the block has the capacity, and that the items are initialized.
    #[inline]
    unsafe fn set_len(&mut self, len: usize) {
        if self.head().room > 0 {
            // SAFETY: a head with capacity is that of our own block.
            unsafe { (*self.head.as_ptr()).len = len };
        }
    }

    #[inline]
    pub fn reserve(&mut self, more: usize) {
        if self.head().room - self.head().len < more {
            self.grow(more);
        }
    }

    #[cold]
    fn grow(&mut self, more: usize) {
        let (len, old) = (self.head().len, self.head().room);
        let room = len.checked_add(more).expect("a size").max(old.saturating_mul(2)).max(4);
        let layout = Self::layout(room);
        // SAFETY: the layouts are those of our blocks and are never empty; a block that was there was made by the same allocator.
        let block = unsafe {
            if old == 0 {
                alloc(layout)
            } else {
                realloc(self.head.as_ptr().cast(), Self::layout(old), layout.size())
            }
        };
        let Some(head) = NonNull::new(block.cast::<Head>()) else { handle_alloc_error(layout) };
        // SAFETY: the block is new and large enough for a head.
        unsafe { head.as_ptr().write(Head { len, room }) };
        self.head = head;
    }

    #[inline]
    pub fn push(&mut self, item: T) {
        self.reserve(1);
        let len = self.head().len;
        // SAFETY: there is room for one more item after the others.
        unsafe {
            self.start().add(len).write(item);
            self.set_len(len + 1);
        }
    }

    #[inline]
    pub fn pop(&mut self) -> Option<T> {
        let len = self.head().len.checked_sub(1)?;
        // SAFETY: the last item is initialized, and is no item any more once the length is less.
        unsafe {
            self.set_len(len);
            Some(self.start().add(len).read())
        }
    }

    pub fn truncate(&mut self, len: usize) {
        while self.head().len > len {
            drop(self.pop());
        }
    }

    pub fn clear(&mut self) {
        self.truncate(0);
    }

    /// Removes the item at an index, and moves the later ones down. Panics if there is none.
    pub fn remove(&mut self, place: usize) -> T {
        let len = self.head().len;
        assert!(place < len, "no item at {place}");
        // SAFETY: there is an item at the index, and exactly the later items are moved down by one.
        unsafe {
            let at = self.start().add(place);
            let item = at.read();
            ptr::copy(at.add(1), at, len - place - 1);
            self.set_len(len - 1);
            item
        }
    }

    /// Removes the items of a range, and moves the later ones down. Panics if the range is out of bounds.
    pub fn drain(&mut self, range: std::ops::Range<usize>) -> std::vec::IntoIter<T> {
        let len = self.head().len;
        assert!(range.start <= range.end && range.end <= len, "no items at {range:?}");
        let mut taken = Vec::with_capacity(range.len());
        // SAFETY: the items of the range are moved out, and the later ones are moved down over them.
        unsafe {
            let at = self.start().add(range.start);
            ptr::copy_nonoverlapping(at, taken.as_mut_ptr(), range.len());
            taken.set_len(range.len());
            ptr::copy(at.add(range.len()), at, len - range.end);
            self.set_len(len - range.len());
        }
        taken.into_iter()
    }

    pub fn resize(&mut self, len: usize, item: T)
    where
        T: Clone,
    {
        self.truncate(len);
        while self.head().len < len {
            self.push(item.clone());
        }
    }
}

impl<T> Drop for ThinVec<T> {
    fn drop(&mut self) {
        let Head { len, room } = *self.head();
        if room > 0 {
            // SAFETY: we own the items and the block, and drop them once.
            unsafe {
                ptr::drop_in_place(ptr::slice_from_raw_parts_mut(self.start(), len));
                dealloc(self.head.as_ptr().cast(), Self::layout(room));
            }
        }
    }
}

impl<T> Deref for ThinVec<T> {
    type Target = [T];
    #[inline]
    fn deref(&self) -> &[T] {
        // SAFETY: as many items as the length says are initialized.
        unsafe { slice::from_raw_parts(self.start(), self.head().len) }
    }
}
impl<T> DerefMut for ThinVec<T> {
    #[inline]
    fn deref_mut(&mut self) -> &mut [T] {
        // SAFETY: as above, and nothing else refers to the block.
        unsafe { slice::from_raw_parts_mut(self.start(), self.head().len) }
    }
}
impl<T> Default for ThinVec<T> {
    fn default() -> Self {
        Self::new()
    }
}
impl<T: Clone> Clone for ThinVec<T> {
    fn clone(&self) -> Self {
        let mut items = Self::with_capacity(self.len());
        items.extend(self.iter().cloned());
        items
    }
}
impl<T: fmt::Debug> fmt::Debug for ThinVec<T> {
    fn fmt(&self, f: &mut fmt::Formatter<'_>) -> fmt::Result {
        fmt::Debug::fmt(&**self, f)
    }
}
impl<T: std::hash::Hash> std::hash::Hash for ThinVec<T> {
    fn hash<H: std::hash::Hasher>(&self, state: &mut H) {
        (**self).hash(state);
    }
}
impl<T> Extend<T> for ThinVec<T> {
    fn extend<I: IntoIterator<Item = T>>(&mut self, iter: I) {
        let iter = iter.into_iter();
        self.reserve(iter.size_hint().0);
        iter.for_each(|item| self.push(item));
    }
}
impl<T> FromIterator<T> for ThinVec<T> {
    fn from_iter<I: IntoIterator<Item = T>>(iter: I) -> Self {
        let mut items = Self::new();
        items.extend(iter);
        items
    }
}
impl<T> From<Vec<T>> for ThinVec<T> {
    fn from(items: Vec<T>) -> Self {
        items.into_iter().collect()
    }
}
impl<'a, T> IntoIterator for &'a ThinVec<T> {
    type Item = &'a T;
    type IntoIter = slice::Iter<'a, T>;
    fn into_iter(self) -> slice::Iter<'a, T> {
        self.iter()
    }
}
impl<'a, T> IntoIterator for &'a mut ThinVec<T> {
    type Item = &'a mut T;
    type IntoIter = slice::IterMut<'a, T>;
    fn into_iter(self) -> slice::IterMut<'a, T> {
        self.iter_mut()
    }
}

/// Moves the items of a vector out, one after another.
pub struct Items<T> {
    items: ManuallyDrop<ThinVec<T>>,
    at: usize,
}

impl<T> Iterator for Items<T> {
    type Item = T;
    fn next(&mut self) -> Option<T> {
        if self.at == self.items.len() {
            return None;
        }
        self.at += 1;
        // SAFETY: each item is moved out once; `drop` skips those before `at`.
        Some(unsafe { self.items.start().add(self.at - 1).read() })
    }
}
impl<T> Drop for Items<T> {
    fn drop(&mut self) {
        self.for_each(drop);
        // SAFETY: no item is left, so only the block is freed, and once.
        unsafe {
            self.items.set_len(0);
            ManuallyDrop::drop(&mut self.items);
        }
    }
}
impl<T> IntoIterator for ThinVec<T> {
    type Item = T;
    type IntoIter = Items<T>;
    fn into_iter(self) -> Items<T> {
        Items { items: ManuallyDrop::new(self), at: 0 }
    }
}
