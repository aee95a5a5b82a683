//! Rust values that come back unchanged.
use rhai_world::{Array, Limits, Map, TryFromValueError, Value, World};
use std::collections::{BTreeMap, HashSet};

/// Pseudo-random numbers from a seed.
struct Random(u64);

impl Random {
    fn next(&mut self) -> u64 {
        self.0 ^= self.0 << 13;
        self.0 ^= self.0 >> 7;
        self.0 ^= self.0 << 17;
        self.0
    }

    fn below(&mut self, n: u64) -> u64 {
        self.next() % n
    }

    fn text(&mut self) -> String {
        (0..self.below(40)).map(|_| char::from_u32(self.below(0x800) as u32).unwrap_or('x')).collect()
    }

    fn wide(&mut self) -> u128 {
        u128::from(self.next()) << 64 | u128::from(self.next())
    }

    fn values(&mut self, depth: u64) -> Array {
        (0..self.below(4)).map(|_| self.value(depth)).collect()
    }

    fn value(&mut self, depth: u64) -> Value {
        match self.below(if depth == 0 { 17 } else { 20 }) {
            0 => Value::Unit,
            1 => Value::Bool(self.below(2) == 1),
            2 => Value::Int(self.next() as i64),
            3 => Value::Char(char::from_u32(self.below(0x11_0000) as u32).unwrap_or('\0')),
            4 => Value::Text(self.text()),
            5 => Value::Blob((0..self.below(50)).map(|_| self.next() as u8).collect()),
            6 => Value::U8(self.next() as u8),
            7 => Value::U16(self.next() as u16),
            8 => Value::U32(self.next() as u32),
            9 => Value::U64(self.next()),
            10 => Value::U128(self.wide()),
            11 => Value::I8(self.next() as i8),
            12 => Value::I16(self.next() as i16),
            13 => Value::I32(self.next() as i32),
            14 => Value::I128(self.wide() as i128),
            15 => Value::Range(self.next() as i64, self.next() as i64),
            16 => Value::RangeWithEnd(self.next() as i64, self.next() as i64),
            17 => Value::Array(self.values(depth - 1)),
            18 => Value::FnPtr(self.text(), self.values(depth - 1)),
            _ => Value::Map((0..self.below(4)).map(|_| (self.text(), self.value(depth - 1))).collect()),
        }
    }
}

#[test]
fn ten_thousand_come_back() {
    let mut random = Random(0x9e37_79b9_7f4a_7c15);
    let mut world = World::new(Limits::default()).unwrap();
    let count = if cfg!(miri) { 10 } else { 10_000 };
    for _ in 0..count {
        let value = random.value(4);
        world.put(&value).unwrap();
        assert_eq!(world.value(0).as_ref(), Ok(&Some(value.clone())));
        assert_eq!(value.clone(), value);
        world.drop().unwrap();
    }
    assert_eq!(world.hand_len(), 0);
}

#[test]
fn a_loop_is_no_value() {
    let mut world = World::new(Limits::default()).unwrap();
    world.make_array(0).unwrap();
    world.share(0).unwrap();
    world.copy(0).unwrap();
    world.make_array(1).unwrap();
    world.write(0, 1).unwrap();
    assert_eq!(world.value(0), Ok(None));
}

#[test]
fn equal_values() {
    let values = [
        Value::from([Value::from(1), Value::from(2)].into_iter().collect::<Array>()),
        Value::from([Value::from(1), Value::from(3)].into_iter().collect::<Array>()),
        Value::from(
            [Value::from([Value::from(1)].into_iter().collect::<Array>()), Value::from(2)].into_iter().collect::<Array>(),
        ),
        Value::from([("a".to_owned(), Value::from(1))].into_iter().collect::<Map>()),
        Value::from([("b".to_owned(), Value::from(1))].into_iter().collect::<Map>()),
        Value::FnPtr("a".into(), Array::new()),
        Value::FnPtr("a".into(), vec![Value::from(1)].into()),
        Value::from(1),
        Value::U8(1),
        Value::from(1..2),
        Value::from(1..=2),
        Value::from(()),
    ];
    for (i, one) in values.iter().enumerate() {
        for (j, other) in values.iter().enumerate() {
            assert_eq!(one == other, i == j, "{one:?} {other:?}");
        }
    }
    assert_eq!(values.iter().collect::<HashSet<_>>().len(), values.len());
    assert_eq!(format!("{:?}", values[2]), "[[Int(1)], Int(2)]");
    assert_eq!(format!("{:?} {:?} {:?}", values[3], values[5], values[6]), "{\"a\": Int(1)} FnPtr(\"a\") FnPtr(\"a\", Int(1))");
}

#[test]
fn maps() {
    let mut map: Map = [("b", 2), ("a", 1), ("b", 3)].map(|(key, n)| (key.to_owned(), Value::from(n))).into_iter().collect();
    assert_eq!(map.iter().collect::<Vec<_>>(), [("a", &Value::Int(1)), ("b", &Value::Int(3))]);
    assert_eq!((map.iter().len(), map.iter().next_back()), (2, Some(("b", &Value::Int(3)))));
    assert_eq!(map.insert("c", Value::Unit), None);
    assert_eq!(map.insert("a", Value::Unit), Some(Value::Int(1)));
    assert_eq!((map.get("a"), map.get("d"), map.len()), (Some(&Value::Unit), None, 3));
    assert_eq!((map.remove("b"), map.remove("b")), (Some(Value::Int(3)), None));
    let tree = BTreeMap::from(map.clone());
    assert_eq!((tree.keys().map(String::as_str).collect::<String>().as_str(), Map::from(tree)), ("ac", map));
}

fn comes_back<T: Clone + PartialEq + std::fmt::Debug + Into<Value> + TryFrom<Value, Error = TryFromValueError>>(it: T) {
    assert_eq!(T::try_from(it.clone().into()), Ok(it));
    let other = Value::FnPtr("f".into(), Array::new());
    assert_eq!(T::try_from(other.clone()).unwrap_err().into_value(), other);
}

#[test]
fn types_of_rust() {
    comes_back(());
    comes_back(true);
    comes_back(-7_i64);
    comes_back('é');
    comes_back("a text".to_owned());
    comes_back(vec![0_u8, 255]);
    comes_back(vec![Value::Unit, Value::from(1)]);
    comes_back(Array::from(vec![Value::Unit]));
    comes_back(BTreeMap::from([("k".to_owned(), Value::Unit)]));
    comes_back(Map::from(BTreeMap::from([("k".to_owned(), Value::Unit)])));
    comes_back(1..4_i64);
    comes_back(1..=4_i64);
    assert_eq!(u8::try_from(Value::U8(255)), Ok(255));
    assert_eq!(i32::try_from(Value::I32(-1)), Ok(-1));
    assert_eq!(u128::try_from(Value::U128(u128::MAX)), Ok(u128::MAX));
    assert_eq!(i128::try_from(Value::Int(1)), Ok(1));
    assert_eq!(u8::try_from(Value::Int(-1)).unwrap_err().value(), &Value::Int(-1));
    assert_eq!(Value::from("é"), Value::Text("é".into()));
    assert_eq!(Value::from(&b"\x00"[..]), Value::Blob(vec![0]));
}
