//! What workloads begin with: the same as in `times`.

use crate::value::{Text, Value};

#[must_use]
pub fn keys(count: u32) -> Vec<String> {
    (0..count).map(|i| format!("key{:010}", i.wrapping_mul(2_654_435_761))).collect()
}

#[must_use]
pub fn sixteen(length: usize) -> Vec<Text> {
    (0..16).map(|i| Text::new(&format!("{}{i:02}", "a".repeat(length - 2)))).collect()
}

#[must_use]
pub fn names(count: u32) -> Vec<Text> {
    (0..count).map(|i| Text::new(&format!("var{i:04}"))).collect()
}

#[must_use]
pub fn ints(count: i64) -> Vec<Value> {
    (0..count).map(Value::int).collect()
}
