//! Values that workloads begin with.

use rhai::*;

pub fn ints(n: usize) -> Dynamic {
    let mut items = Vec::with_capacity(n);
    for i in 0..n {
        items.push(Dynamic::from_int(i as INT));
    }
    Dynamic::from_array(items)
}

pub fn nested(levels: usize) -> Dynamic {
    let mut value = Dynamic::from_int(7);
    for _ in 0..levels {
        let mut items = Vec::with_capacity(10);
        for _ in 0..10 {
            items.push(value.clone());
        }
        value = Dynamic::from_array(items);
    }
    value
}

pub fn slots() -> Vec<Dynamic> {
    let mut slots = Vec::with_capacity(64);
    for _ in 0..64 {
        slots.push(Dynamic::UNIT);
    }
    slots
}

pub fn sixty_four() -> Vec<Dynamic> {
    let mut values = Vec::with_capacity(64);
    for i in 0..64 {
        values.push(Dynamic::from_int(i));
    }
    values
}

pub fn mixed() -> Vec<Dynamic> {
    let mut values = Vec::with_capacity(64);
    for i in 0..64 {
        let value = if i % 2 == 0 { Dynamic::from_int(i) } else { Dynamic::from(ImmutableString::from("mixed")) };
        if i % 4 == 3 {
            values.push(value.into_shared());
        } else {
            values.push(value);
        }
    }
    values
}

pub fn holders() -> Vec<Dynamic> {
    let mut values = Vec::with_capacity(64);
    for i in 0..64 {
        values.push(Dynamic::from_int(i).into_shared());
    }
    values
}

pub fn sum_of(values: &[Dynamic]) -> u64 {
    let mut sum = 0_u64;
    for value in values {
        if let Ok(int) = value.as_int() {
            sum = sum.wrapping_add(int as u64);
        }
    }
    sum
}

pub fn keys(front: &str, count: u32) -> Vec<String> {
    let mut keys = Vec::with_capacity(count as usize);
    for i in 0..count {
        let scattered = i.wrapping_mul(2_654_435_761);
        keys.push(format!("{front}{scattered:010}"));
    }
    keys
}

pub fn map_of(keys: &[String]) -> Map {
    let mut map = Map::new();
    let mut i = 0_i64;
    for key in keys {
        map.insert(key.as_str().into(), Dynamic::from_int(i));
        i = i.wrapping_add(1);
    }
    map
}

pub fn sixteen(length: usize) -> Vec<ImmutableString> {
    let mut texts = Vec::with_capacity(16);
    for i in 0..16 {
        let mut text = String::new();
        for _ in 2..length {
            text.push('a');
        }
        text.push_str(&format!("{i:02}"));
        texts.push(ImmutableString::from(text.as_str()));
    }
    texts
}

// ---- single values

pub fn len_of(value: &Dynamic) -> u64 {
    value.as_array_ref().map_or(0, |a| a.len() as u64)
}

pub fn blob(length: usize) -> Dynamic {
    Dynamic::from_blob(vec![0; length])
}
