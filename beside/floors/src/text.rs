//! Texts of one pointer.

use crate::sip::short_word;
use std::rc::Rc;

/// A text of one pointer, whose copies share its bytes: up to 24 bytes are stored with the count.
#[derive(Clone)]
pub struct Text {
    bytes: Rc<Bytes>,
}

enum Bytes {
    Short(u8, [u8; 24]),
    Long(Box<[u8]>),
}

/// Up to 24 bytes.
#[inline(always)]
fn short(text: &[u8]) -> Option<Bytes> {
    let mut short = [0; 24];
    short.get_mut(..text.len())?.copy_from_slice(text);
    Some(Bytes::Short(text.len() as u8, short))
}

impl Text {
    #[must_use]
    #[inline(always)]
    pub fn new(text: &str) -> Text {
        let bytes = short(text.as_bytes()).unwrap_or_else(|| Bytes::Long(text.as_bytes().into()));
        Text { bytes: Rc::new(bytes) }
    }

    /// Fewer than eight bytes as a number.
    #[must_use]
    #[inline(always)]
    pub fn of_number(text: &str) -> Option<Text> {
        let mut bytes = [0; 24];
        match text.len() {
            len @ 0..=7 => {
                *bytes.first_chunk_mut()? = short_word(text.as_bytes()).to_le_bytes();
                Some(Text { bytes: Rc::new(Bytes::Short(len as u8, bytes)) })
            }
            _ => Text::reserved(text),
        }
    }

    /// Allocates the block of the bytes, and then copies them.
    #[must_use]
    #[inline(always)]
    pub fn reserved(text: &str) -> Option<Text> {
        Text::by(text, |bytes, text| bytes.extend_from_slice(text))
    }

    /// The same by 16 bytes at once.
    #[must_use]
    #[inline(always)]
    pub fn by_sixteen(text: &str) -> Option<Text> {
        Text::by(text, |bytes, text| {
            let (chunks, rest) = text.as_chunks::<16>();
            for chunk in chunks {
                bytes.extend_from_slice(chunk);
            }
            bytes.extend_from_slice(rest);
        })
    }

    #[inline(always)]
    fn by(text: &str, copy: impl Fn(&mut Vec<u8>, &[u8])) -> Option<Text> {
        let text = text.as_bytes();
        if let Some(short) = short(text) {
            return Some(Text { bytes: Rc::new(short) });
        }
        let mut bytes = Vec::new();
        bytes.try_reserve_exact(text.len()).ok()?;
        copy(&mut bytes, text);
        Some(Text { bytes: Rc::new(Bytes::Long(bytes.into_boxed_slice())) })
    }

    /// The block of the count is made first, and that of the bytes is put into it.
    #[must_use]
    #[inline(always)]
    pub fn count_first(text: &str) -> Option<Text> {
        let mut bytes = Rc::new(Bytes::Short(0, [0; 24]));
        let place = Rc::get_mut(&mut bytes)?;
        *place = short(text.as_bytes()).unwrap_or_else(|| Bytes::Long(text.as_bytes().into()));
        Some(Text { bytes })
    }

    /// A copy, unless the count is full.
    #[must_use]
    #[inline(always)]
    pub fn counted(&self) -> Option<Text> {
        (Rc::strong_count(&self.bytes) < usize::MAX).then(|| self.clone())
    }

    /// Appends the bytes of one text to those of another; both are valid, so the result is.
    #[must_use]
    #[inline(always)]
    pub fn joined(&self, other: &Text) -> Text {
        let (a, b) = (self.bytes(), other.bytes());
        let len = a.len() + b.len();
        let bytes = if len <= 24 {
            let mut short = [0; 24];
            short[..a.len()].copy_from_slice(a);
            short[a.len()..len].copy_from_slice(b);
            Bytes::Short(len as u8, short)
        } else {
            Bytes::Long([a, b].concat().into())
        };
        Text { bytes: Rc::new(bytes) }
    }

    /// The same for few bytes, written in place.
    #[must_use]
    #[inline(always)]
    pub fn joined_in_place(&self, other: &Text) -> Option<Text> {
        let mut bytes = Rc::new(Bytes::Short(0, [0; 24]));
        let (a, b) = (self.bytes(), other.bytes());
        let Bytes::Short(len, short) = Rc::get_mut(&mut bytes)? else {
            return None;
        };
        let (front, behind) = short.split_at_mut_checked(a.len())?;
        front.copy_from_slice(a);
        behind.get_mut(..b.len())?.copy_from_slice(b);
        *len = (a.len() + b.len()) as u8;
        Some(Text { bytes })
    }

    /// The same by a list of the bytes.
    #[must_use]
    #[inline(always)]
    pub fn joined_by_list(&self, other: &Text) -> Option<Text> {
        Some(Text { bytes: Rc::new(short(&[self.bytes(), other.bytes()].concat())?) })
    }

    /// Length and bytes of a text of up to eight, as two numbers.
    #[must_use]
    #[inline(always)]
    pub fn numbers(&self) -> Option<(u8, u64)> {
        match &*self.bytes {
            Bytes::Short(len @ 0..=8, bytes) => bytes.first_chunk().map(|first| (*len, u64::from_le_bytes(*first))),
            _ => None,
        }
    }

    /// Whether the text has this length, at most eight, and these bytes.
    #[must_use]
    #[inline(always)]
    pub fn is(&self, (length, word): (u8, u64)) -> bool {
        match &*self.bytes {
            Bytes::Short(len, bytes) => {
                *len == length && bytes.first_chunk().is_some_and(|first| u64::from_le_bytes(*first) == word)
            }
            Bytes::Long(_) => false,
        }
    }

    #[must_use]
    #[inline(always)]
    pub fn bytes(&self) -> &[u8] {
        match &*self.bytes {
            Bytes::Short(len, bytes) => bytes.get(..usize::from(*len)).unwrap_or(&[]),
            Bytes::Long(bytes) => bytes,
        }
    }
}
