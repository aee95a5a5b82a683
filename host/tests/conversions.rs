//! Conversions of values from and to Rust types.
use rhai_world::{Array, Engine, EvalError, Map, Misfit, NoIntError, Scope, TryFromValueError, Value};
use std::collections::{BTreeMap, HashMap};
use std::fmt::Debug;

fn comes_back<T>(it: T, value: Value)
where
    T: Clone + PartialEq + Debug + Into<Value> + TryFrom<Value, Error = TryFromValueError>,
{
    assert_eq!(it.clone().into(), value);
    assert_eq!(T::try_from(value), Ok(it));
}

fn array(items: impl IntoIterator<Item = Value>) -> Value {
    Value::Array(items.into_iter().collect())
}

fn map(fields: impl IntoIterator<Item = (&'static str, Value)>) -> Value {
    Value::Map(fields.into_iter().map(|(key, value)| (key.to_owned(), value)).collect())
}

fn ints(items: impl IntoIterator<Item = i64>) -> Value {
    array(items.into_iter().map(Value::Int))
}

#[test]
fn integers_that_always_fit() {
    comes_back(i8::MIN, Value::Int(-128));
    comes_back(i16::MAX, Value::Int(32_767));
    comes_back(i32::MIN, Value::Int(-2_147_483_648));
    comes_back(i64::MIN, Value::Int(i64::MIN));
    comes_back(u8::MAX, Value::Int(255));
    comes_back(u16::MAX, Value::Int(65_535));
    comes_back(u32::MAX, Value::Int(4_294_967_295));
    assert_eq!(Value::from(7), Value::Int(7));
}

fn fits<T: TryInto<Value, Error = NoIntError>>(number: T, int: i64) {
    assert_eq!(number.try_into(), Ok(Value::Int(int)));
}

fn fits_not<T: TryInto<Value, Error = NoIntError>>(number: T, told: &str) {
    assert_eq!(number.try_into().map_err(|error| error.to_string()), Err(format!("the number {told} is no int")));
}

#[test]
fn integers_that_fit_at_times() {
    fits(i64::MAX as u64, i64::MAX);
    fits(7_usize, 7);
    fits(-7_isize, -7);
    fits(i128::from(i64::MIN), i64::MIN);
    fits(0_u128, 0);
    fits_not(1_u64 << 63, "9223372036854775808");
    fits_not(i128::from(i64::MIN) - 1, "-9223372036854775809");
    fits_not(u128::MAX, "340282366920938463463374607431768211455");
}

#[test]
fn any_integer_is_taken_as_one_that_has_it() {
    assert_eq!(
        (u8::try_from(Value::Int(255)), u8::try_from(Value::U128(255)), u8::try_from(Value::I8(1))),
        (Ok(255), Ok(255), Ok(1))
    );
    assert_eq!(
        (i64::try_from(Value::U64(7)), usize::try_from(Value::Int(7)), u128::try_from(Value::I128(7))),
        (Ok(7), Ok(7), Ok(7))
    );
    for (value, number) in
        [(Value::Int(256), "256"), (Value::Int(-1), "-1"), (Value::U128(u128::MAX), "340282366920938463463374607431768211455")]
    {
        let error = u8::try_from(value.clone()).unwrap_err();
        assert_eq!((error.why(), error.value()), (&Misfit::Range, &value));
        assert_eq!(error.to_string(), format!("the value is {number}, which is no u8"));
    }
    assert_eq!(i64::try_from(Value::U64(1 << 63)).map_err(TryFromValueError::into_value), Err(Value::U64(1 << 63)));
    let error = i64::try_from(Value::from("7")).unwrap_err();
    assert_eq!((error.why(), error.to_string().as_str()), (&Misfit::Type, "the value is a text, and i64 was wanted"));
}

#[test]
fn vectors_arrays_and_bytes() {
    comes_back(vec![1, 2, 3], ints([1, 2, 3]));
    comes_back(vec!["a".to_owned()], array([Value::from("a")]));
    comes_back(vec![vec![true], vec![]], array([array([Value::Bool(true)]), array([])]));
    comes_back(vec![Value::Unit, Value::Int(1)], array([Value::Unit, Value::Int(1)]));
    comes_back([1, 2], ints([1, 2]));
    comes_back([Value::Unit], array([Value::Unit]));
    comes_back(Vec::<i64>::new(), array([]));
    comes_back(vec![0_u8, 255], Value::Blob(vec![0, 255]));
    comes_back([7_u8; 3], Value::Blob(vec![7, 7, 7]));
    comes_back(vec![vec![1_u8], vec![2]], array([Value::Blob(vec![1]), Value::Blob(vec![2])]));
    assert_eq!(Value::from(["a", "b"]), array([Value::from("a"), Value::from("b")]));
    assert_eq!((Value::from(&[1, 2][..]), Value::from(&b"ab"[..])), (ints([1, 2]), Value::Blob(vec![97, 98])));
    assert_eq!(Vec::<u8>::try_from(ints([0, 255])), Ok(vec![0, 255]));
    assert_eq!(Vec::<usize>::try_from(ints([0, 255])), Ok(vec![0, 255]));
}

#[test]
fn options_and_maps() {
    comes_back(Some(7), Value::Int(7));
    comes_back(None::<String>, Value::Unit);
    comes_back(vec![Some('a'), None], array([Value::Char('a'), Value::Unit]));
    comes_back(BTreeMap::from([("k".to_owned(), vec![1])]), map([("k", ints([1]))]));
    comes_back(
        HashMap::from([("k".to_owned(), Some(true)), ("l".to_owned(), None)]),
        map([("k", Value::Bool(true)), ("l", Value::Unit)]),
    );
    comes_back(HashMap::from([("k".to_owned(), Value::Unit)]), map([("k", Value::Unit)]));
    comes_back(BTreeMap::from([("k".to_owned(), Value::Unit)]), map([("k", Value::Unit)]));
}

#[test]
fn what_does_not_fit_is_named() {
    let said = |error: TryFromValueError| error.to_string();
    let error = Vec::<Vec<u16>>::try_from(array([ints([1]), ints([2, 70_000])])).unwrap_err();
    assert_eq!((error.why(), error.value()), (&Misfit::Range, &Value::Int(70_000)));
    assert_eq!(error.to_string(), "the value at [1][1] is 70000, which is no u16");
    let fields = map([("a b", array([Value::from("x")]))]);
    assert_eq!(
        HashMap::<String, Vec<bool>>::try_from(fields.clone()).map_err(said),
        Err("the value at [\"a b\"][0] is a text, and bool was wanted".to_owned())
    );
    assert_eq!(
        BTreeMap::<String, Vec<bool>>::try_from(fields).map_err(said),
        Err("the value at [\"a b\"][0] is a text, and bool was wanted".to_owned())
    );
    assert_eq!(Vec::<i64>::try_from(Value::Unit).map_err(said), Err("the value is (), and an array was wanted".to_owned()));
    assert_eq!(Vec::<u8>::try_from(Value::Unit).map_err(said), Err("the value is (), and a blob was wanted".to_owned()));
    assert_eq!(
        Option::<i64>::try_from(Value::Bool(true)).map_err(said),
        Err("the value is a bool, and i64 was wanted".to_owned())
    );
    let error = <[i64; 2]>::try_from(ints([1, 2, 3])).unwrap_err();
    assert_eq!((error.why(), error.value()), (&Misfit::Length(2), &ints([1, 2, 3])));
    assert_eq!(error.to_string(), "the value is an array of another length than 2");
    assert_eq!(<[Value; 2]>::try_from(ints([])).map_err(|error| error.why().clone()), Err(Misfit::Length(2)));
    assert_eq!(<[u8; 2]>::try_from(Value::Blob(vec![1])).map_err(|error| error.why().clone()), Err(Misfit::Length(2)));
    assert_eq!(
        HashMap::<String, i64>::try_from(Value::Int(1)).map_err(said),
        Err("the value is an int, and a map was wanted".to_owned())
    );
}

#[test]
fn functions_take_and_answer_them() -> Result<(), EvalError> {
    let mut engine = Engine::new();
    engine
        .register_fn("length", |text: String| text.len())
        .register_fn("sum", |items: Vec<i64>| items.iter().sum::<i64>())
        .register_fn("ends", |items: [i32; 2]| (items[0]..=items[1]).collect::<Vec<i32>>())
        .register_fn("small", |n: u8| n)
        .register_fn("most", || u64::MAX)
        .register_fn("tried", || -> Result<u64, String> { Ok(u64::MAX) })
        .register_fn("or", |it: Option<i64>, other: i64| it.unwrap_or(other))
        .register_fn("some", |n: i64| (n > 0).then_some(n))
        .register_fn("count", |words: Vec<String>| {
            let mut counts = HashMap::new();
            words.into_iter().for_each(|word| *counts.entry(word).or_insert(0) += 1);
            counts
        })
        .register_fn("bytes", |bytes: Vec<u8>| bytes);
    assert_eq!(engine.eval::<i64>("length(\"four\") + sum([1, 2, 3])")?, 10);
    assert_eq!(engine.eval::<Vec<i32>>("ends([2, 5])")?, [2, 3, 4, 5]);
    assert_eq!(engine.eval::<[bool; 3]>("[or((), 2) == 2, or(1, 2) == 1, some(0) == ()]")?, [true; 3]);
    let counts = engine.eval::<HashMap<String, u32>>("count([\"a\", \"b\", \"a\"])")?;
    assert_eq!(counts, HashMap::from([("a".to_owned(), 2), ("b".to_owned(), 1)]));
    assert_eq!(engine.eval::<Value>("bytes([1, 255])")?, Value::Blob(vec![1, 255]));
    let caught = |call: &str| engine.eval::<String>(&format!("try {{ {call}; \"\" }} catch (why) {{ why }}"));
    assert_eq!(caught("small(256)")?, "argument 1 is 256, which is no u8");
    assert_eq!(caught("sum([1, 'c'])")?, "argument 1 at [1] is a character, and i64 is wanted");
    assert_eq!(caught("or(1, true)")?, "argument 2 is a bool, and i64 is wanted");
    assert_eq!(caught("ends([1])")?, "argument 1 is an array of another length than 2");
    assert_eq!(caught("most()")?, "the number 18446744073709551615 is no int");
    assert_eq!(caught("tried()")?, "the number 18446744073709551615 is no int");
    Ok(())
}

#[test]
fn values_of_runs_and_variables() -> Result<(), EvalError> {
    let engine = Engine::new();
    let mut scope = Scope::new()?;
    scope.push("n", 7_usize)?.push("items", vec![1, 2])?.push("none", None::<i64>)?.push("bytes", [1_u8, 2])?;
    let refused = scope.push("most", u64::MAX).unwrap_err();
    assert!(matches!(refused, EvalError::NoInt(_)), "{refused:?}");
    assert!(scope.set("n", u128::MAX).is_err());
    assert_eq!((scope.len(), scope.get::<u8>("n")), (4, Some(7)));
    assert_eq!(scope.try_get::<Vec<i64>>("items")?, Some(vec![1, 2]));
    assert_eq!(scope.try_get::<i64>("nowhere")?, None);
    let error = scope.try_get::<i64>("items").unwrap_err();
    assert!(matches!(&error, EvalError::Mismatch(error) if *error.why() == Misfit::Type), "{error:?}");
    assert_eq!(scope.get::<i64>("items"), None);
    assert_eq!(engine.eval_with_scope::<Option<i64>>(&mut scope, "none")?, None);
    assert_eq!(engine.eval_with_scope::<Array>(&mut scope, "items")?, Array::from(vec![Value::Int(1), Value::Int(2)]));
    assert_eq!(engine.eval::<Map>("#{a: 1}")?.get("a"), Some(&Value::Int(1)));
    let error = engine.eval::<u8>("200 + 56").unwrap_err();
    assert_eq!(error.to_string(), "the value is 256, which is no u8");
    let ast = engine.compile("fn add(x, y) { x + y }")?;
    assert_eq!(engine.call_fn::<u16>(&mut scope, &ast, "add", (1_u8, 2_usize))?, 3);
    assert!(matches!(engine.call_fn::<u16>(&mut scope, &ast, "add", (1, u64::MAX)), Err(EvalError::NoInt(_))));
    Ok(())
}
