//! Sorted chunks that contain the values, and a list of each chunk's first key: two searches, however many keys there are.

use super::front::{front_of, place_in, Key};
use super::Keyed;
use crate::value::Value;

/// The most keys of a chunk: its blocks are below 1,024 bytes, since the C library joins its short free blocks when a longer one is
/// allocated.
const MOST: usize = 16;

/// Keys in order, and the values in the same order.
struct Chunk {
    keys: Vec<Key>,
    values: Vec<Value>,
}

pub struct Chunks {
    /// The front of each chunk's first key.
    fronts: Vec<u64>,
    chunks: Vec<Chunk>,
    len: usize,
}

impl Chunk {
    fn with_room() -> Option<Chunk> {
        let (mut keys, mut values) = (Vec::new(), Vec::new());
        keys.try_reserve_exact(MOST).ok()?;
        values.try_reserve_exact(MOST).ok()?;
        Some(Chunk { keys, values })
    }
}

impl Chunks {
    /// The chunk that has a key, or would.
    #[inline(always)]
    fn chunk_of(&self, front: u64, text: &str) -> usize {
        let mut at = self.fronts.partition_point(|first| *first <= front);
        while at > 1 && self.fronts[at - 1] == front && self.chunks[at - 1].keys[0].text.as_str() > text {
            at -= 1;
        }
        at.saturating_sub(1)
    }

    /// Halves a full chunk.
    #[cold]
    fn split(&mut self, at: usize) -> Option<()> {
        self.chunks.try_reserve(1).ok()?;
        self.fronts.try_reserve(1).ok()?;
        let mut upper = Chunk::with_room()?;
        let chunk = &mut self.chunks[at];
        upper.keys.extend(chunk.keys.drain(MOST / 2..));
        upper.values.extend(chunk.values.drain(MOST / 2..));
        self.fronts.insert(at + 1, upper.keys[0].front);
        self.chunks.insert(at + 1, upper);
        Some(())
    }

    /// Makes room for one more key beside the place, and says which chunk has it.
    fn room_for(&mut self, front: u64, text: &str) -> Option<usize> {
        if self.chunks.is_empty() {
            self.chunks.try_reserve(1).ok()?;
            self.fronts.try_reserve(1).ok()?;
            self.chunks.push(Chunk::with_room()?);
            self.fronts.push(front);
            return Some(0);
        }
        let at = self.chunk_of(front, text);
        if self.chunks[at].keys.len() < MOST {
            return Some(at);
        }
        self.split(at)?;
        Some(self.chunk_of(front, text))
    }
}

impl Keyed for Chunks {
    fn new() -> Self {
        Chunks { fronts: Vec::new(), chunks: Vec::new(), len: 0 }
    }

    fn count(&self) -> usize {
        self.len
    }

    #[inline(always)]
    fn get(&self, key: &str) -> Option<&Value> {
        let front = front_of(key.as_bytes());
        let chunk = self.chunks.get(self.chunk_of(front, key))?;
        chunk.values.get(place_in(&chunk.keys, front, key).ok()?)
    }

    fn insert(&mut self, text: String, value: Value) -> Result<Option<Value>, (String, Value)> {
        let front = front_of(text.as_bytes());
        let Some(at) = self.room_for(front, &text) else {
            return Err((text, value));
        };
        let chunk = &mut self.chunks[at];
        match place_in(&chunk.keys, front, &text) {
            Ok(place) => Ok(Some(std::mem::replace(&mut chunk.values[place], value))),
            Err(place) => {
                chunk.keys.insert(place, Key { front, text });
                chunk.values.insert(place, value);
                self.fronts[at] = chunk.keys[0].front;
                self.len += 1;
                Ok(None)
            }
        }
    }

    fn remove(&mut self, key: &str) -> Option<Value> {
        let front = front_of(key.as_bytes());
        let at = self.chunk_of(front, key);
        let chunk = self.chunks.get_mut(at)?;
        let place = place_in(&chunk.keys, front, key).ok()?;
        chunk.keys.remove(place);
        let value = chunk.values.remove(place);
        match chunk.keys.first() {
            Some(first) => self.fronts[at] = first.front,
            None => {
                self.chunks.remove(at);
                self.fronts.remove(at);
            }
        }
        self.len -= 1;
        Some(value)
    }

    fn entries(&self) -> impl Iterator<Item = (&str, &Value)> {
        self.chunks.iter().flat_map(|chunk| chunk.keys.iter().zip(&chunk.values)).map(|(key, value)| (key.text.as_str(), value))
    }

    fn copied(&self) -> Option<Self> {
        let mut chunks = Vec::new();
        chunks.try_reserve_exact(self.chunks.len()).ok()?;
        for chunk in &self.chunks {
            let mut copy = Chunk::with_room()?;
            for key in &chunk.keys {
                copy.keys.push(Key { front: key.front, text: key.text.clone() });
            }
            for value in &chunk.values {
                copy.values.push(value.copy()?);
            }
            chunks.push(copy);
        }
        Some(Chunks { fronts: self.fronts.clone(), chunks, len: self.len })
    }
}
