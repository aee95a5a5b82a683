//! Conversions of values from and to Rust types with values inside: vectors, arrays, options and
//! maps.
use super::misfit::TryFromValueError;
use super::{Array, Map, Value};
use std::collections::{BTreeMap, HashMap};
use std::hash::BuildHasher;
use std::ops::{Range, RangeInclusive};

/// An item type whose vectors, arrays and slices convert to values: to arrays, but bytes to a blob.
/// A type of the program's own only needs the empty implementation.
///
/// ```
/// use rhai_world::{Engine, EvalError, IntoItem, Map, Value};
///
/// struct Point(i64, i64);
///
/// impl From<Point> for Value {
///     fn from(point: Point) -> Value {
///         Map::from_iter([("x", point.0), ("y", point.1)].map(|(key, n)| (key.to_owned(), Value::from(n)))).into()
///     }
/// }
///
/// impl IntoItem for Point {}
///
/// let mut engine = Engine::new();
/// engine.register_fn("points", || vec![Point(1, 2), Point(3, 4)]);
/// assert_eq!(engine.eval::<i64>("points()[1].y")?, 4);
/// # Ok::<(), EvalError>(())
/// ```
pub trait IntoItem: Into<Value> {
    /// Makes a value from these items.
    fn items_into_value(items: Vec<Self>) -> Value {
        Value::Array(items.into_iter().map(Into::into).collect())
    }
}

/// An item type that values convert to: in Rust vectors, arrays and options, and in the fields of
/// maps. A type of the program's own only needs the empty implementation.
///
/// ```
/// use rhai_world::{Engine, EvalError, FromItem, TryFromValueError, Value};
///
/// #[derive(Debug, PartialEq)]
/// struct Name(String);
///
/// impl TryFrom<Value> for Name {
///     type Error = TryFromValueError;
///
///     fn try_from(value: Value) -> Result<Name, TryFromValueError> {
///         String::try_from(value).map(Name)
///     }
/// }
///
/// impl FromItem for Name {}
///
/// let names = Engine::new().eval::<Vec<Name>>("[\"a\", \"b\"]")?;
/// assert_eq!(names, [Name("a".to_owned()), Name("b".to_owned())]);
/// # Ok::<(), EvalError>(())
/// ```
pub trait FromItem: TryFrom<Value, Error = TryFromValueError> {
    /// Converts a value to a vector of these items.
    fn items_of_value(value: Value) -> Result<Vec<Self>, TryFromValueError> {
        let Value::Array(items) = value else {
            return Err(TryFromValueError::of_type(value, "an array"));
        };
        let item = |(number, value)| Self::try_from(value).map_err(|error| error.at_item(number));
        items.into_iter().enumerate().map(item).collect()
    }
}

macro_rules! marked {
    ($mark:ident: $($kind:ty)*) => {
        $(impl $mark for $kind {})*
    };
}

marked! { IntoItem: () bool char String &str i8 i16 i32 i64 u16 u32 Array Map Range<i64> RangeInclusive<i64> }
marked! { FromItem: () bool char String i8 i16 i32 i64 i128 isize u16 u32 u64 u128 usize Array Map Range<i64> RangeInclusive<i64> }

impl IntoItem for Value {
    fn items_into_value(items: Vec<Value>) -> Value {
        Value::Array(items.into())
    }
}

impl IntoItem for u8 {
    fn items_into_value(items: Vec<u8>) -> Value {
        Value::Blob(items)
    }
}

/// Bytes convert from a blob, or from an array of ints.
impl FromItem for u8 {
    fn items_of_value(value: Value) -> Result<Vec<u8>, TryFromValueError> {
        match value {
            Value::Blob(bytes) => Ok(bytes),
            Value::Array(items) => {
                let byte = |(number, value): (usize, Value)| {
                    u8::try_from(value).map_err(|error: TryFromValueError| error.at_item(number))
                };
                items.into_iter().enumerate().map(byte).collect()
            }
            value => Err(TryFromValueError::of_type(value, "a blob")),
        }
    }
}

// Vectors and arrays

impl<T: IntoItem> From<Vec<T>> for Value {
    fn from(items: Vec<T>) -> Value {
        T::items_into_value(items)
    }
}

impl<T: IntoItem + Clone> From<&[T]> for Value {
    fn from(items: &[T]) -> Value {
        T::items_into_value(items.to_vec())
    }
}

impl<T: IntoItem, const N: usize> From<[T; N]> for Value {
    fn from(items: [T; N]) -> Value {
        T::items_into_value(Vec::from(items))
    }
}

impl<T: FromItem> TryFrom<Value> for Vec<T> {
    type Error = TryFromValueError;

    fn try_from(value: Value) -> Result<Vec<T>, TryFromValueError> {
        T::items_of_value(value)
    }
}

impl TryFrom<Value> for Vec<Value> {
    type Error = TryFromValueError;

    fn try_from(value: Value) -> Result<Vec<Value>, TryFromValueError> {
        match value {
            Value::Array(items) => Ok(items.into_vec()),
            value => Err(TryFromValueError::of_type(value, "an array")),
        }
    }
}

impl<T: FromItem, const N: usize> TryFrom<Value> for [T; N] {
    type Error = TryFromValueError;

    fn try_from(value: Value) -> Result<[T; N], TryFromValueError> {
        T::items_of_value(of_length(value, N)?)?.try_into().map_err(|_| TryFromValueError::of_length(Value::Unit, N))
    }
}

impl<const N: usize> TryFrom<Value> for [Value; N] {
    type Error = TryFromValueError;

    fn try_from(value: Value) -> Result<[Value; N], TryFromValueError> {
        let items = Vec::<Value>::try_from(of_length(value, N)?)?;
        items.try_into().map_err(|items: Vec<Value>| TryFromValueError::of_length(items.into(), N))
    }
}

/// Returns the value, unless its number of items is another one.
fn of_length(value: Value, wanted: usize) -> Result<Value, TryFromValueError> {
    match &value {
        Value::Array(items) if items.len() != wanted => Err(TryFromValueError::of_length(value, wanted)),
        Value::Blob(bytes) if bytes.len() != wanted => Err(TryFromValueError::of_length(value, wanted)),
        _ => Ok(value),
    }
}

// Options

/// `None` converts to unit.
impl<T: Into<Value>> From<Option<T>> for Value {
    fn from(it: Option<T>) -> Value {
        it.map_or(Value::Unit, Into::into)
    }
}

/// Unit converts to `None`. (An `Option<Value>` is always `Some`, by an implementation in the
/// standard library.)
impl<T: FromItem> TryFrom<Value> for Option<T> {
    type Error = TryFromValueError;

    fn try_from(value: Value) -> Result<Option<T>, TryFromValueError> {
        match value {
            Value::Unit => Ok(None),
            value => T::try_from(value).map(Some),
        }
    }
}

// Maps

impl<T: Into<Value>> From<BTreeMap<String, T>> for Value {
    fn from(fields: BTreeMap<String, T>) -> Value {
        Value::Map(fields.into_iter().map(|(key, value)| (key, value.into())).collect())
    }
}

impl<T: Into<Value>, S> From<HashMap<String, T, S>> for Value {
    fn from(fields: HashMap<String, T, S>) -> Value {
        Value::Map(fields.into_iter().map(|(key, value)| (key, value.into())).collect())
    }
}

impl<T: FromItem> TryFrom<Value> for BTreeMap<String, T> {
    type Error = TryFromValueError;

    fn try_from(value: Value) -> Result<BTreeMap<String, T>, TryFromValueError> {
        fields(value)?.map(field).collect()
    }
}

impl TryFrom<Value> for BTreeMap<String, Value> {
    type Error = TryFromValueError;

    fn try_from(value: Value) -> Result<BTreeMap<String, Value>, TryFromValueError> {
        Ok(fields(value)?.collect())
    }
}

impl<T: FromItem, S: BuildHasher + Default> TryFrom<Value> for HashMap<String, T, S> {
    type Error = TryFromValueError;

    fn try_from(value: Value) -> Result<HashMap<String, T, S>, TryFromValueError> {
        fields(value)?.map(field).collect()
    }
}

impl<S: BuildHasher + Default> TryFrom<Value> for HashMap<String, Value, S> {
    type Error = TryFromValueError;

    fn try_from(value: Value) -> Result<HashMap<String, Value, S>, TryFromValueError> {
        Ok(fields(value)?.collect())
    }
}

fn fields(value: Value) -> Result<impl Iterator<Item = (String, Value)>, TryFromValueError> {
    match value {
        Value::Map(fields) => Ok(fields.into_iter()),
        value => Err(TryFromValueError::of_type(value, "a map")),
    }
}

fn field<T: FromItem>((key, value): (String, Value)) -> Result<(String, T), TryFromValueError> {
    match T::try_from(value) {
        Ok(value) => Ok((key, value)),
        Err(error) => Err(error.at_field(&key)),
    }
}

// What may be an item

impl<T: IntoItem> IntoItem for Vec<T> {}
impl<T: IntoItem, const N: usize> IntoItem for [T; N] {}
impl<T: Into<Value>> IntoItem for Option<T> {}
impl<T: Into<Value>> IntoItem for BTreeMap<String, T> {}
impl<T: Into<Value>, S> IntoItem for HashMap<String, T, S> {}

impl<T: FromItem> FromItem for Vec<T> {}
impl FromItem for Vec<Value> {}
impl<T: FromItem, const N: usize> FromItem for [T; N] {}
impl<const N: usize> FromItem for [Value; N] {}
impl<T: FromItem> FromItem for Option<T> {}
impl<T: FromItem> FromItem for BTreeMap<String, T> {}
impl FromItem for BTreeMap<String, Value> {}
impl<T: FromItem, S: BuildHasher + Default> FromItem for HashMap<String, T, S> {}
impl<S: BuildHasher + Default> FromItem for HashMap<String, Value, S> {}
