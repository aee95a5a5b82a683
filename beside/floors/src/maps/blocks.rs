//! No map: only the keys' blocks are allocated and freed. What a map takes beyond this is its own cost.

use super::Keyed;
use crate::value::Value;

pub struct Blocks {
    keys: Vec<String>,
    value: Value,
}

impl Keyed for Blocks {
    fn new() -> Self {
        Blocks { keys: Vec::with_capacity(16), value: Value::int(0) }
    }

    fn count(&self) -> usize {
        self.keys.len()
    }

    fn get(&self, _key: &str) -> Option<&Value> {
        Some(&self.value)
    }

    fn insert(&mut self, key: String, _value: Value) -> Result<Option<Value>, (String, Value)> {
        self.keys.push(key);
        Ok(None)
    }

    fn remove(&mut self, _key: &str) -> Option<Value> {
        self.keys.pop().map(|_| Value::int(0))
    }

    fn entries(&self) -> impl Iterator<Item = (&str, &Value)> {
        self.keys.iter().map(|key| (key.as_str(), &self.value))
    }

    fn copied(&self) -> Option<Self> {
        Some(Blocks { keys: self.keys.clone(), value: self.value.copy()? })
    }
}
