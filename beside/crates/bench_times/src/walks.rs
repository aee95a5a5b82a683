//! Hashes, scans, casts and targets.

use crate::given::{blob, holders, ints, keys, map_of, sixteen, sixty_four, sum_of};
use rhai_cast::DynamicCast;
use rhai_show::hashed;
use rhai_target::Target;
use rhai_text::{ImmutableString, Position};
use rhai_value::{Dynamic, INT, Map, Part, Store, Visitor};
use std::alloc::{AllocError, Global};
use std::hash::{DefaultHasher, Hasher};

/// Hashes a value; rhai feeds the hasher as it walks.
fn hashes(alloc: Global, value: &Dynamic, n: usize) -> Result<u64, AllocError> {
    let store = Store::new(alloc);
    let mut sum = 0_u64;
    for _ in 0..n {
        match &hashed(alloc, value, &store) {
            Ok(Some(bytes)) => {
                let mut hasher = DefaultHasher::new();
                hasher.write(bytes.bytes());
                if hasher.finish() != 0 {
                    sum = sum.wrapping_add(1);
                }
            }
            Ok(None) => {}
            Err(_) => return Err(AllocError),
        }
    }
    Ok(sum)
}

#[inline(never)]
pub(crate) fn hash_int(alloc: Global, n: usize) -> Result<u64, AllocError> {
    hashes(alloc, &Dynamic::from_int(7), n)
}

#[inline(never)]
pub(crate) fn hash_text(alloc: Global, n: usize) -> Result<u64, AllocError> {
    let mut sum = 0_u64;
    if let Some(text) = sixteen(alloc, 100)?.pop() {
        sum = hashes(alloc, &Dynamic::from(text), n)?;
    }
    Ok(sum)
}

#[inline(never)]
pub(crate) fn hash_ints(alloc: Global, n: usize) -> Result<u64, AllocError> {
    let value = ints(alloc, 1000)?;
    hashes(alloc, &value, n)
}

/// A map of ten maps of ten ints.
#[inline(never)]
pub(crate) fn hash_maps(alloc: Global, n: usize) -> Result<u64, AllocError> {
    let keys = keys(alloc, "key", 10)?;
    let mut outer = Map::new(alloc);
    for key in &keys {
        let inner = Dynamic::from_map(map_of(alloc, &keys)?);
        match outer.insert(String::from_str(alloc, key.as_str())?, inner) {
            Ok(_) => {}
            Err(_) => return Err(AllocError),
        }
    }
    hashes(alloc, &Dynamic::from_map(outer), n)
}

/// Counts values, and sets each int to 0.
#[derive(Drop)]
struct Zeros {
    visits: u64,
}

impl Visitor for Zeros {
    ghost use Rattle.std.specs.Prelude.{◌+◌, ◌-◌, ◌^◌, min, pos};
    ghost use Rattle.rhai_value.specs.Parts.{with_int};
    ghost use Rattle.rhai_value.specs.Scan.{nodes_kept};
    ghost use Rattle.std.proofs.Common.{refl};

    ghost visited = { λ v t. (record v { visits = min (v.visits + 1) (2 ^ 64 - 1) }, with_int (pos 0) t) };

    ghost adds_no_nodes = { λ v t. nodes_kept _ _ t refl };

    fn visit(&mut self, value: &mut Dynamic) {
        self.visits = self.visits.saturating_add(1);
        if let Some(int) = INT::own_mut(value) {
            *int = 0;
        }
    }
}

#[inline(never)]
pub(crate) fn scan_ints(alloc: Global, n: usize) -> Result<u64, AllocError> {
    let mut value = ints(alloc, 1000)?;
    let mut zeros = Zeros { visits: 0 };
    for _ in 0..n {
        value.deep_scan(&mut zeros);
    }
    Ok(zeros.visits)
}

#[inline(never)]
pub(crate) fn clone_cast(alloc: Global, n: usize) -> Result<u64, AllocError> {
    let store = Store::new(alloc);
    let values = sixty_four(alloc)?;
    let mut sum = 0_u64;
    for i in 0..n {
        if let Some(value) = values.get(i & 63) {
            if value.is_int(&store) {
                sum = sum.wrapping_add(value.clone_cast::<INT>(alloc, &store)?.cast_unsigned());
            }
        }
    }
    Ok(sum)
}

#[inline(never)]
pub(crate) fn try_cast_text(alloc: Global, n: usize) -> Result<u64, AllocError> {
    let store = Store::new(alloc);
    let texts = sixteen(alloc, 10)?;
    let mut sum = 0_u64;
    for i in 0..n {
        if let Some(text) = texts.get(i & 15) {
            let value = Dynamic::from(text.copy(alloc)?);
            if let Some(text) = value.try_cast::<ImmutableString>(alloc, &store)? {
                sum = sum.wrapping_add(text.len() as u64);
            }
        }
    }
    Ok(sum)
}

fn numbers(alloc: Global) -> Result<Vec<INT>, AllocError> {
    let mut numbers = Vec::with_capacity(alloc, 1000)?;
    for i in 0..1000 {
        numbers.push(i)?;
    }
    Ok(numbers)
}

#[inline(never)]
pub(crate) fn from_vec(alloc: Global, n: usize) -> Result<u64, AllocError> {
    let store = Store::new(alloc);
    let mut sum = 0_u64;
    for _ in 0..n {
        let value = Dynamic::from_vec(alloc, numbers(alloc)?)?;
        if let Ok(items) = value.as_array_ref(&store) {
            sum = sum.wrapping_add(items.len() as u64);
        }
    }
    Ok(sum)
}

/// The array is made again each time.
#[inline(never)]
pub(crate) fn typed_array(alloc: Global, n: usize) -> Result<u64, AllocError> {
    let store = Store::new(alloc);
    let mut sum = 0_u64;
    for _ in 0..n {
        if let Ok(numbers) = ints(alloc, 1000)?.into_typed_array::<INT>(alloc, &store) {
            sum = sum.wrapping_add(numbers.len() as u64);
        }
    }
    Ok(sum)
}

#[inline(never)]
pub(crate) fn write_char(alloc: Global, n: usize) -> Result<u64, AllocError> {
    let mut store = Store::new(alloc);
    let mut sum = 0_u64;
    if let Some(text) = sixteen(alloc, 1000)?.pop() {
        let mut source = Dynamic::from(text);
        for i in 0..n {
            if source.is_string(&store) {
                let mut target = Target::StringChar {
                    source: &mut source,
                    value: Dynamic::from_char('b'),
                    index: i & 511,
                };
                if target
                    .propagate_changed_value(alloc, &mut store, Position::NONE)
                    .is_ok()
                {
                    sum = sum.wrapping_add(1);
                }
                target.release(&mut store);
            }
        }
    }
    Ok(sum)
}

#[inline(never)]
pub(crate) fn write_byte(alloc: Global, n: usize) -> Result<u64, AllocError> {
    let mut store = Store::new(alloc);
    let mut source = blob(alloc, 1000)?;
    for i in 0..n {
        let index = i & 511;
        let length = match source.as_blob_ref(&store) {
            Ok(bytes) => bytes.len(),
            Err(_) => 0,
        };
        if index < length {
            let mut target = Target::BlobByte {
                source: &mut source,
                value: Dynamic::from_int((i as u64).cast_signed()),
                index,
            };
            let _ = target.propagate_changed_value(alloc, &mut store, Position::NONE);
            target.release(&mut store);
        }
    }
    match source.as_blob_ref(&store) {
        Ok(bytes) => Ok(u64::from(bytes.first().copied().unwrap_or(0))),
        Err(_) => Ok(0),
    }
}

#[inline(never)]
pub(crate) fn write_bit(alloc: Global, n: usize) -> Result<u64, AllocError> {
    let mut store = Store::new(alloc);
    let mut source = Dynamic::from_int(0);
    for i in 0..n {
        if source.is_int(&store) {
            let mut target = Target::Bit {
                source: &mut source,
                value: Dynamic::from_bool(i & 64 == 0),
                bit: (i & 63) as u8,
            };
            let _ = target.propagate_changed_value(alloc, &mut store, Position::NONE);
            target.release(&mut store);
        }
    }
    Ok(source.as_int(&store).unwrap_or(0).cast_unsigned())
}

/// A target of a shared value, written and released.
#[inline(never)]
pub(crate) fn write_shared(alloc: Global, n: usize) -> Result<u64, AllocError> {
    let mut store = Store::new(alloc);
    let mut values = holders(alloc, &mut store)?;
    for i in 0..n {
        if let Some(value) = values.get_mut(i & 63) {
            if let Ok(target) = Target::try_from(value, &mut store) {
                let mut target = target;
                target.put(&mut store, Dynamic::from_int((i as u64).cast_signed()));
                target.release(&mut store);
            }
        }
    }
    Ok(sum_of(&values, &store))
}
