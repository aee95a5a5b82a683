//! What the types promise besides their calls: which can go to other threads, which can be keys,
//! and how they are formatted.
use rhai_world::{
    Answer, ArithmeticFault, Array, Ast, CallPlace, Command, Engine, Entries, Entry, Error, EvalError, Function, Interrupt,
    Journal, Limits, Map, Memory, Misfit, Name, NoIntError, Operator, Place, Progress, Refusal, Saved, Script, ScriptError,
    SizeKind, TryFromValueError, Type, Value,
};
use std::collections::HashSet;
use std::hash::Hash;

fn goes_to_threads<T: Send + Sync + 'static>() {}

fn is_a_key<T: Hash + Eq + Clone + std::fmt::Debug + Send + Sync + 'static>() {}

fn is_an_error<T: std::error::Error + Send + Sync + 'static>() {}

#[test]
fn all_but_a_world_go_to_other_threads_and_are_keys() {
    is_a_key::<Answer>();
    is_a_key::<ArithmeticFault>();
    is_a_key::<Array>();
    is_a_key::<Command>();
    is_a_key::<Entry>();
    is_a_key::<Error>();
    is_a_key::<Journal>();
    is_a_key::<Limits>();
    is_a_key::<Map>();
    is_a_key::<Name>();
    is_a_key::<Operator>();
    is_a_key::<Place>();
    is_a_key::<Refusal>();
    is_a_key::<Script>();
    is_a_key::<ScriptError>();
    is_a_key::<SizeKind>();
    is_a_key::<Type>();
    is_a_key::<Value>();
    is_a_key::<EvalError>();
    is_a_key::<Memory>();
    is_a_key::<Misfit>();
    is_a_key::<NoIntError>();
    is_a_key::<Progress>();
    is_a_key::<CallPlace>();
    is_a_key::<Saved>();
    is_a_key::<TryFromValueError>();
    goes_to_threads::<Ast>();
    goes_to_threads::<Engine>();
    goes_to_threads::<Function>();
    goes_to_threads::<Entries>();
    goes_to_threads::<Interrupt>();
}

#[test]
fn errors() {
    is_an_error::<Error>();
    is_an_error::<Refusal>();
    is_an_error::<EvalError>();
    is_an_error::<NoIntError>();
    is_an_error::<ScriptError>();
    is_an_error::<TryFromValueError>();
    let error = Error::Refused(Refusal::WrongType("i64".into(), "string".into()));
    assert_eq!(error.to_string(), "refused: i64 is wanted, and string is there");
    assert_eq!(std::error::Error::source(&error).map(ToString::to_string).as_deref(), Some("i64 is wanted, and string is there"));
    for error in [Error::OutOfMemory, Error::Closed, Error::NoCommand, Error::NoName, Error::OtherLibrary, Error::Unexpected] {
        assert!(!error.to_string().is_empty() && std::error::Error::source(&error).is_none());
    }
}

#[test]
fn words_of_lines() {
    let kinds: Vec<String> = Type::ALL.iter().map(ToString::to_string).collect();
    let signs: Vec<String> = Operator::ALL.iter().map(ToString::to_string).collect();
    assert_eq!((kinds[3].as_str(), kinds[22].as_str(), signs[0].as_str(), signs[30].as_str()), ("i64", "<shared>", "+", "^="));
    assert_eq!(kinds.into_iter().chain(signs).collect::<HashSet<_>>().len(), 54);
}
