//! Marks by which the page sees which variables changed.
use rhai_world::{Seen, Shape, Snapshot};
use std::collections::hash_map::{DefaultHasher, HashMap};
use std::collections::VecDeque;
use std::hash::{Hash, Hasher};

/// The most values that all marks of a picture look at.
const MOST: usize = 300_000;

/// Makes marks: two values of which one could be seen to differ have different ones, but for an
/// accident in 2^64. Numbers of cells don't count, since they depend on other variables.
pub struct Marks<'a> {
    snapshot: &'a Snapshot,
    left: usize,
}

impl<'a> Marks<'a> {
    pub fn new(snapshot: &'a Snapshot) -> Marks<'a> {
        Marks { snapshot, left: MOST }
    }

    /// Returns the mark of a value with all cells that it reaches; `None` once too many values were
    /// looked at.
    pub fn mark(&mut self, value: Seen<'a>) -> Option<String> {
        let mut hasher = DefaultHasher::new();
        let (mut numbers, mut waiting) = (HashMap::new(), VecDeque::from([value]));
        while let Some(value) = waiting.pop_front() {
            for part in value.walk() {
                self.left = self.left.checked_sub(1)?;
                (part.key(), part.tag(), part.is_constant()).hash(&mut hasher);
                if let Shape::Cell(cell) = part.shape() {
                    let next = numbers.len();
                    let number = *numbers.entry(cell).or_insert(next);
                    (10_u8, number).hash(&mut hasher);
                    if number == next {
                        waiting.extend(self.snapshot.cell(cell));
                    }
                } else {
                    head(&part.shape(), &mut hasher);
                }
            }
        }
        Some(format!("{:016x}", hasher.finish()))
    }
}

/// Hashes a value without those inside, which the walk comes to next.
fn head(shape: &Shape<'_>, hasher: &mut DefaultHasher) {
    match shape {
        Shape::Array(items) => (5_u8, items.len()).hash(hasher),
        Shape::Map(fields) => (7_u8, fields.len()).hash(hasher),
        Shape::FnPtr(name, curried) => (8_u8, name, curried.len()).hash(hasher),
        plain => plain.hash(hasher),
    }
}

#[cfg(test)]
mod tests {
    use super::Marks;
    use rhai_world::{Engine, EvalError, Scope};

    fn marks(script: &str) -> Result<Vec<Option<String>>, EvalError> {
        let mut scope = Scope::new()?;
        Engine::new().run_with_scope(&mut scope, script)?;
        let snapshot = scope.snapshot()?;
        let mut marks = Marks::new(&snapshot);
        Ok(snapshot.variables().map(|(_, value)| marks.mark(value)).collect())
    }

    #[test]
    fn marks_differ_as_values_do() -> Result<(), EvalError> {
        let same =
            marks("let a = [1, [2]]; let b = [1, [2]]; let c = [1, 2]; let d = [[1], 2]; let e = #{x: 1}; let f = #{y: 1};")?;
        assert_eq!(same[0], same[1]);
        for (one, other) in [(0, 2), (2, 3), (4, 5)] {
            assert_ne!(same[one], same[other]);
        }
        // (the second pair of cells has other numbers, the third other contents)
        let cells = marks("let a = 1; let f = || a; let b = 1; let g = || b; let c = 2; let h = || c;")?;
        assert_eq!(cells[0], cells[2]);
        assert_ne!(cells[0], cells[4]);
        Ok(())
    }
}
