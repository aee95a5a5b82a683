//! Values to work on.

use rhai_text::ImmutableString;
use rhai_value::{Dynamic, Key, Map, Store};
use std::alloc::{AllocError, Global};

/// An array of the ints from 0 on.
pub(crate) fn ints(alloc: Global, n: usize) -> Result<Dynamic, AllocError> {
    let mut items = Vec::with_capacity(alloc, n)?;
    for i in 0..n {
        items.push(Dynamic::from_int((i as u64).cast_signed()))?;
    }
    Ok(Dynamic::from_array(items))
}

/// Arrays of ten arrays of ten, and so on, of this many levels.
pub(crate) fn nested(alloc: Global, levels: usize) -> Result<Dynamic, AllocError> {
    let mut value = Dynamic::from_int(7);
    for _ in 0..levels {
        let mut items = Vec::with_capacity(alloc, 10)?;
        for _ in 0..10 {
            items.push(value.copy(alloc)?)?;
        }
        value = Dynamic::from_array(items);
    }
    Ok(value)
}

/// Units, to be overwritten.
pub(crate) fn slots(alloc: Global) -> Result<Vec<Dynamic>, AllocError> {
    let mut slots = Vec::with_capacity(alloc, 64)?;
    for _ in 0..64 {
        slots.push(Dynamic::UNIT)?;
    }
    Ok(slots)
}

/// Sixty-four ints.
pub(crate) fn sixty_four(alloc: Global) -> Result<Vec<Dynamic>, AllocError> {
    let mut values = Vec::with_capacity(alloc, 64)?;
    for i in 0..64 {
        values.push(Dynamic::from_int(i))?;
    }
    Ok(values)
}

/// Ints and texts in turn, and each fourth in a cell.
pub(crate) fn mixed(alloc: Global, store: &mut Store) -> Result<Vec<Dynamic>, AllocError> {
    let mut values = Vec::with_capacity(alloc, 64)?;
    for i in 0..64 {
        let value = if i % 2 == 0 {
            Dynamic::from_int(i)
        } else {
            Dynamic::from_text(alloc, "mixed")?
        };
        if i % 4 == 3 {
            match value.into_shared(store) {
                Ok(holder) => values.push(holder)?,
                Err(_) => return Err(AllocError),
            }
        } else {
            values.push(value)?;
        }
    }
    Ok(values)
}

/// Ints in cells, one each.
pub(crate) fn holders(alloc: Global, store: &mut Store) -> Result<Vec<Dynamic>, AllocError> {
    let mut values = Vec::with_capacity(alloc, 64)?;
    for i in 0..64 {
        match Dynamic::from_int(i).into_shared(store) {
            Ok(holder) => values.push(holder)?,
            Err(_) => return Err(AllocError),
        }
    }
    Ok(values)
}

/// The sum of the ints among the values.
pub(crate) fn sum_of(values: &[Dynamic], store: &Store) -> u64 {
    let mut sum = 0_u64;
    for value in values {
        if let Ok(int) = value.as_int(store) {
            sum = sum.wrapping_add(int.cast_unsigned());
        }
    }
    sum
}

/// Keys in a scattered order, with the same beginning.
pub(crate) fn keys(alloc: Global, front: &str, count: u32) -> Result<Vec<String>, AllocError> {
    let mut keys = Vec::with_capacity(alloc, count as usize)?;
    for i in 0..count {
        let scattered = i.wrapping_mul(2_654_435_761);
        let key = format!(in alloc; "{front}{scattered:010}")?;
        keys.push(key)?;
    }
    Ok(keys)
}

/// A map of these keys to ints.
pub(crate) fn map_of(alloc: Global, keys: &[String]) -> Result<Map, AllocError> {
    let mut map = Map::new(alloc);
    let mut i = 0_i64;
    for key in keys {
        let key = Key::from_str(alloc, key.as_str())?;
        match map.insert_key(key, Dynamic::from_int(i)) {
            Ok(_) => {}
            Err(_) => return Err(AllocError),
        }
        i = i.wrapping_add(1);
    }
    Ok(map)
}

/// Sixteen texts of this length, which differ in their last characters.
pub(crate) fn sixteen(alloc: Global, length: usize) -> Result<Vec<ImmutableString>, AllocError> {
    let mut texts = Vec::with_capacity(alloc, 16)?;
    for i in 0..16 {
        let mut text = String::new(alloc);
        for _ in 2..length {
            text.push('a')?;
        }
        let last = format!(in alloc; "{i:02}")?;
        text.push_str(last.as_str())?;
        texts.push(ImmutableString::from_str(alloc, text.as_str())?)?;
    }
    Ok(texts)
}

/// A blob of zeros.
pub(crate) fn blob(alloc: Global, length: usize) -> Result<Dynamic, AllocError> {
    let mut bytes = Vec::with_capacity(alloc, length)?;
    for _ in 0..length {
        bytes.push(0)?;
    }
    Ok(Dynamic::from_blob(bytes))
}

/// Names of variables.
pub(crate) fn variables(alloc: Global, count: u32) -> Result<Vec<ImmutableString>, AllocError> {
    let mut names = Vec::with_capacity(alloc, count as usize)?;
    for i in 0..count {
        let name = format!(in alloc; "var{i:04}")?;
        names.push(ImmutableString::from_str(alloc, name.as_str())?)?;
    }
    Ok(names)
}
