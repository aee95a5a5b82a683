//! Values to JSON and back.
use rhai_world::{Array, Value};
use rhai_world_serde::{from_value, to_value, Error, Wire};

fn read(text: &str) -> Result<Value, String> {
    serde_json::from_str::<Wire>(text).map(Value::from).map_err(|error| error.to_string())
}

fn written(value: Value) -> Result<String, String> {
    serde_json::to_string(&Wire(value)).map_err(|error| error.to_string())
}

#[test]
fn json_comes_in() -> Result<(), String> {
    assert_eq!(read("null")?, Value::Unit);
    assert_eq!(read("true")?, Value::Bool(true));
    assert_eq!(read("-9223372036854775808")?, Value::Int(i64::MIN));
    assert_eq!(read(r#""a\nß""#)?, Value::from("a\nß"));
    let expected = [Value::Int(1), Value::from("x")].into_iter().collect::<Array>();
    assert_eq!(read(r#"[1, "x"]"#)?, Value::Array(expected));
    assert_eq!(read("1.5").unwrap_err(), "values have no floats at line 1 column 3");
    assert_eq!(read("[9223372036854775808]").unwrap_err(), "9223372036854775808 is no i64 at line 1 column 20");
    assert!(read(r#"{"a": 1, "b": 2, "a": 3}"#).unwrap_err().starts_with(r#"the key "a" twice"#));
    assert!(read("[1").is_err());
    Ok(())
}

#[test]
fn json_goes_out() -> Result<(), String> {
    let map = [("b".to_owned(), Value::Unit), ("a".to_owned(), Value::Bool(false))].into_iter().collect();
    assert_eq!(written(Value::Map(map))?, r#"{"a":false,"b":null}"#);
    assert_eq!(written(Value::Char('"'))?, r#""\"""#);
    assert_eq!(written(Value::U64(u64::MAX))?, "18446744073709551615");
    assert_eq!(written(Value::Blob(vec![1, 2]))?, "[1,2]");
    assert_eq!(written(Value::Range(0, 1)).unwrap_err(), "a range has no form outside of scripts");
    let pointer = Value::FnPtr("f".to_owned(), Array::new());
    assert_eq!(written(pointer).unwrap_err(), "a function pointer has no form outside of scripts");
    Ok(())
}

#[test]
fn a_wire_is_its_value() -> Result<(), Error> {
    let value = Value::Array([Value::Blob(vec![7]), Value::Char('c'), Value::Unit].into_iter().collect());
    assert_eq!(to_value(&Wire(value.clone()))?, value);
    assert_eq!(from_value::<Wire>(value.clone())?, Wire(value));
    // (a number of the host becomes an int, or is refused)
    assert_eq!(to_value(&Wire(Value::U8(7)))?, Value::Int(7));
    assert!(to_value(&Wire(Value::U64(u64::MAX))).is_err());
    assert_eq!(from_value::<Wire>(Value::I128(-7))?, Wire(Value::Int(-7)));
    Ok(())
}
