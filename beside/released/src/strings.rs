//! Replaces `ImmutableString`: a reference-counted, copy-on-write text. As in the released crate it
//! is `Shared<SmartString>`. `-` removes every occurrence.

use crate::{Shared, SmartString};
use std::borrow::Borrow;
use std::cmp::Ordering;
use std::fmt;
use std::hash::{Hash, Hasher};
use std::ops::{Add, AddAssign, Deref, Sub, SubAssign};

#[derive(Clone)]
pub struct ImmutableString(Shared<SmartString>);

impl ImmutableString {
    #[inline(always)]
    #[must_use]
    pub fn new() -> Self {
        Self(SmartString::new().into())
    }
    #[inline(always)]
    #[must_use]
    pub fn as_str(&self) -> &str {
        self.0.as_str()
    }
    #[inline]
    #[must_use]
    pub fn into_owned(self) -> String {
        match Shared::try_unwrap(self.0) {
            Ok(s) => s.into(),
            Err(s) => s.as_str().to_string(),
        }
    }
    #[inline(always)]
    pub(crate) fn make_mut(&mut self) -> &mut SmartString {
        Shared::make_mut(&mut self.0)
    }
}

impl Default for ImmutableString {
    fn default() -> Self {
        Self::new()
    }
}
impl Deref for ImmutableString {
    type Target = str;
    #[inline(always)]
    fn deref(&self) -> &str {
        self.as_str()
    }
}
impl AsRef<str> for ImmutableString {
    #[inline(always)]
    fn as_ref(&self) -> &str {
        self.as_str()
    }
}
impl Borrow<str> for ImmutableString {
    #[inline(always)]
    fn borrow(&self) -> &str {
        self.as_str()
    }
}
impl Eq for ImmutableString {}
impl<S: AsRef<str> + ?Sized> PartialEq<S> for ImmutableString {
    #[inline]
    fn eq(&self, other: &S) -> bool {
        self.as_str() == other.as_ref()
    }
}
impl PartialEq<ImmutableString> for str {
    #[inline]
    fn eq(&self, other: &ImmutableString) -> bool {
        self == other.as_str()
    }
}
impl<S: AsRef<str> + ?Sized> PartialOrd<S> for ImmutableString {
    #[inline]
    fn partial_cmp(&self, other: &S) -> Option<Ordering> {
        Some(self.as_str().cmp(other.as_ref()))
    }
}
impl Ord for ImmutableString {
    #[inline]
    fn cmp(&self, other: &Self) -> Ordering {
        self.as_str().cmp(other.as_str())
    }
}
impl Hash for ImmutableString {
    #[inline]
    fn hash<H: Hasher>(&self, state: &mut H) {
        self.as_str().hash(state);
    }
}
impl fmt::Debug for ImmutableString {
    fn fmt(&self, f: &mut fmt::Formatter<'_>) -> fmt::Result {
        fmt::Debug::fmt(self.as_str(), f)
    }
}
impl fmt::Display for ImmutableString {
    fn fmt(&self, f: &mut fmt::Formatter<'_>) -> fmt::Result {
        fmt::Display::fmt(self.as_str(), f)
    }
}
impl From<&str> for ImmutableString {
    #[inline(always)]
    fn from(s: &str) -> Self {
        Self(Shared::new(s.into()))
    }
}
impl From<String> for ImmutableString {
    #[inline(always)]
    fn from(s: String) -> Self {
        Self(Shared::new(s.into()))
    }
}
impl From<&String> for ImmutableString {
    #[inline(always)]
    fn from(s: &String) -> Self {
        s.as_str().into()
    }
}
impl From<SmartString> for ImmutableString {
    #[inline(always)]
    fn from(s: SmartString) -> Self {
        Self(Shared::new(s))
    }
}
impl From<ImmutableString> for SmartString {
    #[inline(always)]
    fn from(mut s: ImmutableString) -> Self {
        std::mem::take(s.make_mut())
    }
}
impl FromIterator<char> for ImmutableString {
    #[inline]
    fn from_iter<I: IntoIterator<Item = char>>(iter: I) -> Self {
        Self(Shared::new(iter.into_iter().collect()))
    }
}

impl Add for &ImmutableString {
    type Output = ImmutableString;
    #[inline]
    fn add(self, rhs: Self) -> ImmutableString {
        if rhs.is_empty() {
            self.clone()
        } else if self.is_empty() {
            rhs.clone()
        } else {
            let mut s = self.clone();
            s.make_mut().push_str(rhs);
            s
        }
    }
}
impl AddAssign<&Self> for ImmutableString {
    #[inline]
    fn add_assign(&mut self, rhs: &Self) {
        if rhs.is_empty() {
        } else if self.is_empty() {
            self.0 = rhs.0.clone();
        } else {
            self.make_mut().push_str(rhs);
        }
    }
}
impl AddAssign<&str> for ImmutableString {
    #[inline]
    fn add_assign(&mut self, rhs: &str) {
        if !rhs.is_empty() {
            self.make_mut().push_str(rhs);
        }
    }
}
impl Add<char> for &ImmutableString {
    type Output = ImmutableString;
    #[inline]
    fn add(self, rhs: char) -> ImmutableString {
        let mut s = self.clone();
        s.make_mut().push(rhs);
        s
    }
}
impl Sub for &ImmutableString {
    type Output = ImmutableString;
    #[inline]
    fn sub(self, rhs: Self) -> ImmutableString {
        if rhs.is_empty() || self.is_empty() {
            self.clone()
        } else {
            self.replace(rhs.as_str(), "").into()
        }
    }
}
impl SubAssign<&Self> for ImmutableString {
    #[inline]
    fn sub_assign(&mut self, rhs: &Self) {
        *self = &*self - rhs;
    }
}
impl Sub<char> for &ImmutableString {
    type Output = ImmutableString;
    #[inline]
    fn sub(self, rhs: char) -> ImmutableString {
        self.replace(rhs, "").into()
    }
}
impl SubAssign<char> for ImmutableString {
    #[inline]
    fn sub_assign(&mut self, rhs: char) {
        *self = &*self - rhs;
    }
}
