//! Replaces `smartstring::SmartString<LazyCompact>` (not in Debian): 24 bytes, texts up to 23 bytes
//! inline, longer ones on the heap. It never moves back inline. For little-endian machines.

use std::borrow::Borrow;
use std::fmt;
use std::hash::{Hash, Hasher};
use std::mem::ManuallyDrop;
use std::ops::Deref;

pub const INLINE: usize = 23;
const MARK: u8 = 0x80;

/// The last byte is `MARK` plus the length; on the heap it is the upper byte of a length, so 0.
#[derive(Clone, Copy)]
#[repr(C)]
struct Inline {
    bytes: [u8; INLINE],
    mark: u8,
}

#[derive(Clone, Copy)]
#[repr(C)]
struct Heap {
    start: *mut u8,
    capacity: usize,
    len: usize,
}

#[repr(C)]
pub union SmartString {
    inline: Inline,
    heap: Heap,
}

const _: () = assert!(std::mem::size_of::<SmartString>() == 24 && cfg!(target_endian = "little"));
// SAFETY: a text of its own, as `String` is.
unsafe impl Send for SmartString {}
// SAFETY: as above.
unsafe impl Sync for SmartString {}

impl SmartString {
    #[inline(always)]
    #[must_use]
    pub const fn new() -> Self {
        Self { inline: Inline { bytes: [0; INLINE], mark: MARK } }
    }
    #[inline(always)]
    fn is_inline(&self) -> bool {
        // SAFETY: all 24 bytes are written in either form.
        unsafe { self.inline.mark & MARK != 0 }
    }
    #[inline(always)]
    fn of_string(text: String) -> Self {
        let mut text = ManuallyDrop::new(text);
        Self { heap: Heap { start: text.as_mut_ptr(), capacity: text.capacity(), len: text.len() } }
    }
    /// The text on the heap, which the caller returns by `keep` or drops.
    #[inline(always)]
    unsafe fn string(&self) -> ManuallyDrop<String> {
        let Heap { start, capacity, len } = self.heap;
        ManuallyDrop::new(String::from_raw_parts(start, len, capacity))
    }
    #[inline(always)]
    fn keep(&mut self, text: ManuallyDrop<String>) {
        let mut text = text;
        self.heap = Heap { start: text.as_mut_ptr(), capacity: text.capacity(), len: text.len() };
    }
    #[inline(always)]
    #[must_use]
    pub fn as_str(&self) -> &str {
        // SAFETY: only whole `str`s and `char`s are ever appended; the last byte determines the form.
        unsafe {
            let bytes = if self.is_inline() {
                let n = (self.inline.mark & !MARK) as usize;
                self.inline.bytes.get_unchecked(..n)
            } else {
                std::slice::from_raw_parts(self.heap.start, self.heap.len)
            };
            std::str::from_utf8_unchecked(bytes)
        }
    }
    #[inline]
    pub fn push_str(&mut self, text: &str) {
        if self.is_inline() {
            // SAFETY: the form was tested.
            let old = unsafe { (self.inline.mark & !MARK) as usize };
            let new = old + text.len();
            if new <= INLINE {
                // SAFETY: as above.
                unsafe {
                    self.inline.bytes[old..new].copy_from_slice(text.as_bytes());
                    self.inline.mark = MARK | new as u8;
                }
            } else {
                let mut s = String::with_capacity(new);
                s.push_str(self.as_str());
                s.push_str(text);
                *self = Self::of_string(s);
            }
        } else {
            // SAFETY: the form was tested, and what is returned is kept.
            let mut s = unsafe { self.string() };
            s.push_str(text);
            self.keep(s);
        }
    }
    #[inline]
    pub fn push(&mut self, c: char) {
        self.push_str(c.encode_utf8(&mut [0; 4]));
    }
}

impl Drop for SmartString {
    #[inline]
    fn drop(&mut self) {
        if !self.is_inline() {
            // SAFETY: we own the text on the heap, and drop it once.
            drop(ManuallyDrop::into_inner(unsafe { self.string() }));
        }
    }
}
impl Clone for SmartString {
    #[inline]
    fn clone(&self) -> Self {
        if self.is_inline() {
            // SAFETY: the form was tested.
            Self { inline: unsafe { self.inline } }
        } else {
            Self::of_string(self.as_str().to_string())
        }
    }
}
impl Default for SmartString {
    #[inline(always)]
    fn default() -> Self {
        Self::new()
    }
}
impl Deref for SmartString {
    type Target = str;
    #[inline(always)]
    fn deref(&self) -> &str {
        self.as_str()
    }
}
impl AsRef<str> for SmartString {
    #[inline(always)]
    fn as_ref(&self) -> &str {
        self.as_str()
    }
}
impl Borrow<str> for SmartString {
    #[inline(always)]
    fn borrow(&self) -> &str {
        self.as_str()
    }
}
impl PartialEq for SmartString {
    #[inline]
    fn eq(&self, other: &Self) -> bool {
        self.as_str() == other.as_str()
    }
}
impl Eq for SmartString {}
impl PartialOrd for SmartString {
    #[inline]
    fn partial_cmp(&self, other: &Self) -> Option<std::cmp::Ordering> {
        Some(self.cmp(other))
    }
}
impl Ord for SmartString {
    #[inline]
    fn cmp(&self, other: &Self) -> std::cmp::Ordering {
        self.as_str().cmp(other.as_str())
    }
}
impl Hash for SmartString {
    #[inline]
    fn hash<H: Hasher>(&self, state: &mut H) {
        self.as_str().hash(state);
    }
}
impl fmt::Debug for SmartString {
    fn fmt(&self, f: &mut fmt::Formatter<'_>) -> fmt::Result {
        fmt::Debug::fmt(self.as_str(), f)
    }
}
impl fmt::Display for SmartString {
    fn fmt(&self, f: &mut fmt::Formatter<'_>) -> fmt::Result {
        fmt::Display::fmt(self.as_str(), f)
    }
}
impl From<&str> for SmartString {
    #[inline]
    fn from(text: &str) -> Self {
        if text.len() <= INLINE {
            let mut s = Self::new();
            s.push_str(text);
            s
        } else {
            Self::of_string(text.to_string())
        }
    }
}
impl From<String> for SmartString {
    #[inline]
    fn from(text: String) -> Self {
        if text.len() <= INLINE {
            Self::from(text.as_str())
        } else {
            Self::of_string(text)
        }
    }
}
impl From<SmartString> for String {
    #[inline]
    fn from(s: SmartString) -> Self {
        if s.is_inline() {
            return s.as_str().to_string();
        }
        let s = ManuallyDrop::new(s);
        // SAFETY: the text on the heap gets a new owner, and `s` isn't dropped.
        ManuallyDrop::into_inner(unsafe { s.string() })
    }
}
impl FromIterator<char> for SmartString {
    #[inline]
    fn from_iter<I: IntoIterator<Item = char>>(iter: I) -> Self {
        let mut s = Self::new();
        for c in iter {
            s.push(c);
        }
        s
    }
}
