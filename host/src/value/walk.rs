//! A walk over a value.
use super::head::{Children, Head};
use super::Value;

/// Visits each value before its children, in order, with its key if it is in a map.
pub(crate) struct Walk<'a> {
    first: Option<&'a Value>,
    open: Vec<Children<'a>>,
}

impl<'a> Walk<'a> {
    pub(crate) fn of(value: &'a Value) -> Walk<'a> {
        Walk { first: Some(value), open: Vec::new() }
    }

    fn come(&mut self) -> Option<(&'a str, &'a Value)> {
        if let Some(value) = self.first.take() {
            return Some(("", value));
        }
        loop {
            let found = self.open.last_mut()?.next();
            if found.is_some() {
                return found;
            }
            self.open.pop();
        }
    }
}

impl<'a> Iterator for Walk<'a> {
    type Item = (&'a str, Head<'a>);

    fn next(&mut self) -> Option<(&'a str, Head<'a>)> {
        let (key, value) = self.come()?;
        if value.has_inside() {
            self.open.push(value.children());
        }
        Some((key, value.head()))
    }
}
