//! Views of a whole hand and a whole scope, and formatting into an existing text.
use rhai_world::{Entry, Error, Limits, Refusal, Value, World};

fn world() -> World {
    World::new(Limits::default()).unwrap()
}

#[test]
fn entries_of_a_scope() {
    let mut w = world();
    assert_eq!(w.scope().map(|entries| entries.len()), Ok(0));
    let names = ["const x\nconst y", "x", "", "x"].map(|name| w.name(name).unwrap());
    w.put_int(1).unwrap();
    w.push_constant(names[0], 0).unwrap();
    w.put_int(2).unwrap();
    w.share(1).unwrap();
    w.push_constant(names[1], 1).unwrap();
    w.put_int(3).unwrap();
    w.make_read_only(2).unwrap();
    w.share(2).unwrap();
    w.push(names[2], 2).unwrap();
    w.make_array(0).unwrap();
    w.share(3).unwrap();
    w.copy(3).unwrap();
    w.make_array(1).unwrap();
    w.write(3, 4).unwrap();
    w.push(names[3], 3).unwrap();
    let scope = w.scope().unwrap();
    assert_eq!(scope.len(), 4);
    let parts = |entry: Entry| (entry.name, entry.is_constant, entry.value);
    let entry = |name: &str, is_constant, value| (name.to_owned(), is_constant, value);
    assert_eq!(
        scope.map(parts).collect::<Vec<_>>(),
        [
            entry("const x\nconst y", true, Some(Value::Int(1))),
            entry("x", false, Some(Value::Int(2))),
            entry("", true, Some(Value::Int(3))),
            entry("x", false, None)
        ]
    );
    assert_eq!(w.scope().unwrap().next_back().map(|last| last.value), Some(None));
    assert_eq!((w.hand_len(), w.len()), (5, Ok(4)));
    assert_eq!(w.name_text(names[0]).as_deref(), Ok("const x\nconst y"));
    assert_eq!(w.name_text(names[2]).as_deref(), Ok(""));
}

#[test]
fn values_of_a_hand() {
    let mut w = world();
    for n in 1..4 {
        w.put_int(n).unwrap();
    }
    let int = |n| Some(Ok(Some(Value::Int(n))));
    let mut hand = w.hand();
    assert_eq!((hand.len(), hand.next(), hand.next_back(), hand.size_hint()), (3, int(1), int(3), (1, Some(1))));
    assert_eq!((hand.next(), hand.next(), hand.next_back(), hand.len()), (int(2), None, None, 0));
    // (views borrow the world, so several can exist at once)
    assert!(w.hand().eq(w.hand().clone()));
    assert!(format!("{:?}", w.hand()).contains("World"));
}

#[test]
fn texts_into_room() {
    let mut w = world();
    w.put_text("a text that is longer than the next").unwrap();
    w.put_char('é').unwrap();
    let mut text = String::from("what was there");
    w.show_into(0, &mut text).unwrap();
    assert_eq!(text, "a text that is longer than the next");
    let room = text.as_ptr();
    w.show_into(1, &mut text).unwrap();
    assert_eq!((text.as_str(), text.as_ptr()), ("é", room));
    w.debug_into(0, &mut text).unwrap();
    assert_eq!(text, "\"a text that is longer than the next\"");
    assert_eq!(w.debug_into(2, &mut text), Err(Error::Refused(Refusal::NoValue)));
    assert_eq!(text, "");
}
