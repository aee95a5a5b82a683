//! Maps whose keys are strings with blocks of their own, since `pop_first` returns one without allocating, and whose values have 48
//! bytes. `insert` returns key and value if an allocation fails; `get`, `remove` and walks allocate nothing.

mod blocks;
mod chunks;
mod front;
mod slots;
mod sorted;
mod tree;

pub use self::{
    blocks::Blocks,
    chunks::Chunks,
    slots::{List, Slots},
    sorted::Sorted,
    tree::Tree,
};
use crate::given::keys;
use crate::value::Value;
use std::hint::black_box;

pub trait Keyed: Sized {
    fn new() -> Self;
    fn count(&self) -> usize;
    fn get(&self, key: &str) -> Option<&Value>;
    fn insert(&mut self, key: String, value: Value) -> Result<Option<Value>, (String, Value)>;
    fn remove(&mut self, key: &str) -> Option<Value>;
    fn entries(&self) -> impl Iterator<Item = (&str, &Value)>;
    fn copied(&self) -> Option<Self>;
}

fn map_of<M: Keyed>(keys: &[String]) -> Option<M> {
    let mut map = M::new();
    for (i, key) in keys.iter().enumerate() {
        map.insert(key.clone(), Value::int(i as i64)).ok()?;
    }
    Some(map)
}

fn told(sum: u64, value: &Value) -> u64 {
    value.own_int().map_or(sum, |n| sum.rotate_left(1) ^ n as u64)
}

fn insert<M: Keyed>(n: usize, count: u32) -> Option<u64> {
    let keys = keys(count);
    let mut sum = 0_u64;
    for _ in 0..n {
        sum = sum.wrapping_add(map_of::<M>(&keys)?.count() as u64);
    }
    Some(sum)
}

fn get<M: Keyed>(n: usize, count: u32) -> Option<u64> {
    let keys = keys(count);
    let map = map_of::<M>(&keys)?;
    let mut sum = 0_u64;
    for _ in 0..n {
        for key in &keys {
            sum = map.get(key).map_or(sum, |value| told(sum, value));
        }
    }
    Some(sum)
}

fn remove_insert<M: Keyed>(n: usize, count: u32) -> Option<u64> {
    let keys = keys(count);
    let mut map = map_of::<M>(&keys)?;
    for _ in 0..n {
        for key in &keys {
            if let Some(value) = map.remove(key) {
                map.insert(key.clone(), value).ok()?;
            }
        }
    }
    Some(map.count() as u64)
}

fn iterate<M: Keyed>(n: usize, count: u32) -> Option<u64> {
    let map = map_of::<M>(&keys(count))?;
    let mut sum = 0_u64;
    for _ in 0..n {
        for (key, value) in map.entries() {
            sum = told(sum, value).wrapping_add(key.len() as u64);
        }
    }
    Some(sum)
}

fn copy<M: Keyed>(n: usize, count: u32) -> Option<u64> {
    let map = Box::new(map_of::<M>(&keys(count))?);
    let mut sum = 0_u64;
    for _ in 0..n {
        let copy = black_box(Box::new(map.copied()?));
        sum = sum.wrapping_add(copy.count() as u64);
    }
    Some(sum)
}

/// The workloads of rows 60 to 73.
pub fn workload<M: Keyed>(which: u32, n: usize) -> u64 {
    let done = match which {
        60 => insert::<M>(n, 10),
        61 => insert::<M>(n, 100),
        62 => insert::<M>(n, 100_000),
        63 => get::<M>(n, 10),
        64 | 73 => get::<M>(n, 100),
        65 => get::<M>(n, 100_000),
        66 => remove_insert::<M>(n, 10),
        67 => remove_insert::<M>(n, 100),
        68 => remove_insert::<M>(n, 100_000),
        69 => iterate::<M>(n, 10),
        70 => iterate::<M>(n, 100),
        71 => iterate::<M>(n, 100_000),
        72 => copy::<M>(n, 100),
        _ => None,
    };
    done.unwrap_or(u64::MAX)
}
