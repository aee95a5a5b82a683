//! Random values.

use crate::dice::{blob, int, key, tag, text, Dice, CHARS};
use crate::recipe::V;

pub fn host(d: &mut Dice) -> V {
    let kind = d.below(9) as u8;
    let n = match d.below(4) {
        0 => 0,
        1 => u128::MAX,
        2 => u128::from(d.below(4)),
        _ => (u128::from(d.roll()) << 64) | u128::from(d.roll()),
    };
    let ends: [u128; 9] = [0xff, 0xffff, 0xffff_ffff, u64::MAX.into(), u128::MAX, 0x7f, 0x7fff, 0x7fff_ffff, i128::MAX as u128];
    V::Host(kind, if d.one_in(4) { ends[kind as usize] } else { n })
}

/// How values are made: how deep, and with or without holders and chains of holders.
#[derive(Clone, Copy)]
pub struct Taste {
    pub holders: bool,
    pub chains: bool,
}

pub struct Maker<'d> {
    pub d: &'d mut Dice,
    pub cells: u8,
    pub taste: Taste,
}

impl Maker<'_> {
    fn leaf(&mut self) -> V {
        let d = &mut *self.d;
        match d.below(16) {
            0 => V::Unit,
            1 | 2 => V::Bool(d.one_in(2)),
            3..=6 => V::Int(int(d)),
            7 | 8 => V::Char(d.pick(&CHARS)),
            9..=11 => V::Text(text(d)),
            12 | 13 => V::Blob(blob(d)),
            14 => host(d),
            _ => {
                let (a, b) =
                    if d.one_in(2) { (d.below(3) as i64, d.below(3) as i64) } else { (int(d), d.pick(&[i64::MAX, i64::MIN, 5])) };
                if d.one_in(2) {
                    V::Range(a, b)
                } else {
                    V::RangeEq(a, b)
                }
            }
        }
    }

    pub fn items(&mut self, depth: u32) -> Vec<V> {
        let n = self.d.pick(&[0, 0, 1, 1, 2, 3]);
        (0..n).map(|_| self.value(depth - 1)).collect()
    }

    /// A value that is no holder.
    pub fn content(&mut self, depth: u32) -> V {
        if depth == 0 || !self.d.one_in(3) {
            return self.leaf();
        }
        match self.d.below(5) {
            0..=2 => V::Array(self.items(depth)),
            3 => {
                let n = self.d.pick(&[0, 1, 1, 2, 3]);
                V::Map((0..n).map(|_| (key(self.d), self.value(depth - 1))).collect())
            }
            _ => V::Fn(text(self.d), self.items(depth)),
        }
    }

    pub fn dressed(&mut self, mut v: V) -> V {
        if self.d.one_in(4) {
            v = V::Tag(tag(self.d), Box::new(v));
        }
        if self.d.one_in(6) {
            v = V::Ro(Box::new(v));
        }
        v
    }

    pub fn holder(&mut self, content: V) -> V {
        self.cells += 1;
        let v = V::Holder(Box::new(content));
        self.dressed(v)
    }

    pub fn value(&mut self, depth: u32) -> V {
        if self.taste.holders && self.cells < 5 {
            if self.cells > 0 && self.d.one_in(8) {
                let k = self.d.below(self.cells.into()) as u8;
                return self.dressed(V::Again(k));
            }
            if self.d.one_in(5) {
                let content = if self.taste.chains && self.d.one_in(4) {
                    self.value(depth)
                } else {
                    let c = self.content(depth);
                    self.dressed(c)
                };
                return self.holder(content);
            }
        }
        let v = self.content(depth);
        self.dressed(v)
    }

    /// A text like this one: the same, a part of it, or the same but for one character.
    pub fn like_text(&mut self, s: &str) -> String {
        let count = s.chars().count() as u64;
        let at = self.d.below(count + 1) as usize;
        match self.d.below(6) {
            0 => s.to_string(),
            1 => s.chars().skip(at).take(self.d.below(4) as usize).collect(),
            2 => s.chars().take(at).collect(),
            3 => s.chars().skip(at).collect(),
            4 => {
                let other = self.d.pick(&CHARS);
                s.chars().enumerate().map(|(i, c)| if i == at { other } else { c }).collect()
            }
            _ => text(self.d),
        }
    }

    /// A blob like this one: the same, or the same but for one byte, or its first bytes.
    pub fn like_blob(&mut self, b: &[u8]) -> Vec<u8> {
        let mut new = b.to_vec();
        let at = self.d.below(b.len() as u64 + 1) as usize;
        match self.d.below(4) {
            0 => (),
            1 => new.truncate(at),
            2 if at < new.len() => new[at] ^= 1,
            _ => return blob(self.d),
        }
        new
    }

    /// A value like this one.
    pub fn like(&mut self, v: &V) -> V {
        match v {
            V::Tag(_, v) | V::Ro(v) => self.like(v),
            V::Holder(v) => {
                let v = self.like(v);
                if self.taste.holders && self.d.one_in(2) {
                    self.holder(v)
                } else {
                    v
                }
            }
            V::Unit => V::Unit,
            V::Bool(_) => V::Bool(self.d.one_in(2)),
            V::Int(_) => V::Int(int(self.d)),
            V::Char(c) => V::Char(if self.d.one_in(3) { *c } else { self.d.pick(&CHARS) }),
            V::Text(s) if self.d.one_in(5) => V::Char(s.chars().next().unwrap_or('a')),
            V::Text(s) => V::Text(self.like_text(s)),
            V::Blob(b) => match self.d.below(4) {
                0 | 1 => V::Blob(self.like_blob(b)),
                2 => V::Text(text(self.d)),
                _ => V::Char(self.d.pick(&CHARS)),
            },
            V::Host(kind, n) => V::Host(*kind, if self.d.one_in(2) { *n } else { u128::from(self.d.below(4)) }),
            V::Range(a, b) | V::RangeEq(a, b) => {
                let b = if self.d.one_in(2) { *b } else { b.wrapping_add(1) };
                if self.d.one_in(2) {
                    V::Range(*a, b)
                } else {
                    V::RangeEq(*a, b)
                }
            }
            V::Array(_) => V::Array(self.items(1)),
            V::Map(m) => V::Map(m.clone()),
            V::Fn(name, a) => V::Fn(name.clone(), if a.is_empty() { vec![] } else { self.items(1) }),
            V::Again(k) => V::Again(*k),
        }
    }
}
