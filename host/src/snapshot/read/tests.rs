use super::*;
use crate::engine::{Engine, EvalError, Progress, Scope};
use crate::snapshot::{Seen, Shape};

/// A count, a length or an int: eight bytes.
fn eight(n: u64) -> Vec<u8> {
    n.to_le_bytes().to_vec()
}

fn text(text: &str) -> Vec<u8> {
    [eight(text.len() as u64), text.as_bytes().to_vec()].concat()
}

fn int(n: i64) -> Vec<u8> {
    [vec![4], n.to_le_bytes().to_vec()].concat()
}

fn cell(number: u64) -> Vec<u8> {
    [vec![CELL], eight(number)].concat()
}

fn variable(name: &str, value: &[u8]) -> Vec<u8> {
    [vec![1], text(name), value.to_vec()].concat()
}

fn read(pieces: &[Vec<u8>]) -> Result<Snapshot, Error> {
    Snapshot::of_bytes(&pieces.concat())
}

fn shapes<'a>(values: impl Iterator<Item = Seen<'a>>) -> Vec<Shape<'a>> {
    values.map(|value| value.shape()).collect()
}

#[test]
fn variables_have_their_cells() -> Result<(), Error> {
    let closure = [vec![8], text("anon$1"), eight(1), cell(0)].concat();
    let bytes = [vec![0], variable("n", &cell(0)), variable("add", &closure), vec![0], int(7)];
    let snapshot = read(&bytes)?;
    assert!(!snapshot.is_of_run());
    let names: Vec<&str> = snapshot.variables().map(|(name, _)| name).collect();
    assert_eq!(names, ["n", "add"]);
    let values = shapes(snapshot.variables().map(|(_, value)| value));
    let Shape::FnPtr("anon$1", captured) = &values[1] else { panic!("{values:?}") };
    assert_eq!((&values[0], shapes(captured.clone())), (&Shape::Cell(0), vec![Shape::Cell(0)]));
    assert_eq!(snapshot.value_count(), 4);
    assert_eq!(snapshot.cell(0).map(|value| value.shape()), Some(Shape::Int(7)));
    assert_eq!(snapshot.cell(1), None);
    Ok(())
}

#[test]
fn every_kind_of_value_is_read() -> Result<(), Error> {
    let label = [vec![LABEL, 1], (-5_i32).to_le_bytes().to_vec()].concat();
    let range = [vec![9, 9], eight(1), eight(4)].concat();
    let map = [vec![7], eight(2), text("a"), vec![1, 1], text("b"), vec![3], u32::from('é').to_le_bytes().to_vec()].concat();
    let values = [
        vec![0],
        [label, int(-1)].concat(),
        [vec![2], text("two")].concat(),
        [vec![6], eight(2), vec![10, 11]].concat(),
        [vec![5], eight(0)].concat(),
        map,
        range,
        vec![9, 0, 255],
        vec![CLOSED],
    ];
    let array = [vec![5], eight(values.len() as u64), values.concat()].concat();
    let snapshot = read(&[vec![0], variable("all", &array), vec![0]])?;
    let all = snapshot.variables().next().map(|(_, value)| value).ok_or(Error::Unexpected)?;
    // (the array, nine values, and the two of the map)
    assert_eq!(all.walk().len(), 12);
    let Shape::Array(items) = all.shape() else { panic!("{all:?}") };
    let items: Vec<Seen> = items.collect();
    assert_eq!((items[1].tag(), items[1].is_constant()), (-5, true));
    assert_eq!((items[0].tag(), items[0].is_constant()), (0, false));
    let found = shapes(items.iter().copied());
    assert_eq!(found[..3], [Shape::Unit, Shape::Int(-1), Shape::Text("two")]);
    assert_eq!((&found[3], &found[8]), (&Shape::Blob(&[10, 11]), &Shape::Closed));
    assert!(matches!(&found[4], Shape::Array(none) if none.len() == 0));
    let Shape::Map(fields) = &found[5] else { panic!("{found:?}") };
    let fields: Vec<(&str, Shape)> = fields.clone().map(|(key, value)| (key, value.shape())).collect();
    assert_eq!(fields, [("a", Shape::Bool(true)), ("b", Shape::Char('é'))]);
    let others: Vec<String> =
        found.iter().filter_map(|shape| if let Shape::Other(value) = shape { Some(value.to_string()) } else { None }).collect();
    assert_eq!(others, ["1..4", "255"]);
    Ok(())
}

#[test]
fn calls_and_hands_are_read() -> Result<(), Error> {
    let inner = [vec![1], text("f"), eight(2), eight(5), variable("x", &int(1)), vec![0]].concat();
    let outer = [vec![1], text(""), eight(6), eight(1), vec![0]].concat();
    let snapshot = read(&[vec![1], inner, outer, vec![0]])?;
    assert!(snapshot.is_of_run());
    let calls: Vec<String> = snapshot.calls().map(|call| call.place().to_string()).collect();
    assert_eq!(calls, ["in f (line 2, column 5)", "in the script (line 6, column 1)"]);
    let inside =
        snapshot.calls().next().map(|call| call.variables().map(|(name, value)| (name, value.shape())).collect::<Vec<_>>());
    assert_eq!(inside, Some(vec![("x", Shape::Int(1))]));

    let hand = [[vec![1], cell(0)].concat(), [vec![1], cell(1)].concat(), vec![0]].concat();
    let snapshot = read(&[vec![2, 0], variable("x", &cell(0)), vec![0], hand.clone(), cell(1), cell(0)])?;
    assert_eq!((snapshot.marks(), shapes(snapshot.hand())), (0, vec![Shape::Cell(0), Shape::Cell(1)]));
    assert_eq!(snapshot.cell(0).map(|value| value.shape()), Some(Shape::Cell(1)));
    assert_eq!(snapshot.cell(1).map(|value| value.shape()), Some(Shape::Cell(0)));

    // (two cells have marks, and the first of them no holder)
    let snapshot = read(&[vec![2, 1, 1, 0], variable("x", &cell(1)), vec![0, 0], int(7), int(8)])?;
    assert_eq!((snapshot.marks(), snapshot.hand().len()), (2, 0));
    let contents = shapes((0..3).filter_map(|number| snapshot.cell(number)));
    assert_eq!(contents, [Shape::Int(7), Shape::Int(8)]);
    Ok(())
}

#[test]
fn other_bytes_are_refused() {
    let whole = [vec![1], variable("x", &[vec![LABEL, 0, 1, 0, 0, 0], cell(0)].concat()), vec![0], vec![0], int(7)];
    let whole = [vec![1], [vec![1], text(""), eight(1), eight(1)].concat(), whole[1].clone(), vec![0, 0], int(7)].concat();
    assert!(Snapshot::of_bytes(&whole).is_ok());
    for length in 0..whole.len() {
        assert_eq!(Snapshot::of_bytes(&whole[..length]), Err(Error::Unexpected), "{length}");
    }
    assert_eq!(Snapshot::of_bytes(&[whole.clone(), vec![0]].concat()), Err(Error::Unexpected));
    let wrong = [
        vec![vec![3]],
        vec![vec![2, 0, 0, 2]],
        vec![vec![2, 1, 0, 0, 0]],
        // a cell before the ones before it, one without content, a huge array, an unknown kind, no text, a place that is no number
        vec![vec![0], variable("x", &cell(1)), vec![0], int(1), int(2)],
        vec![vec![0], variable("x", &cell(0)), vec![0]],
        vec![vec![0], variable("x", &[vec![5], eight(u64::MAX)].concat()), vec![0]],
        vec![vec![0], variable("x", &[13]), vec![0]],
        vec![vec![0], variable("x", &[vec![2], eight(1), vec![0xff]].concat()), vec![0]],
        vec![vec![0], variable("x", &[LABEL, 2, 0, 0, 0, 0, 0]), vec![0]],
        vec![vec![1, 1], text("f"), eight(1 << 32), eight(1), vec![0, 0]],
    ];
    for bytes in wrong {
        assert_eq!(read(&bytes), Err(Error::Unexpected), "{bytes:?}");
    }
}

#[test]
fn deep_values_take_no_stack() -> Result<(), Error> {
    let levels: Vec<u8> = std::iter::repeat_n([vec![5], eight(1)].concat(), 100_000).flatten().collect();
    let bytes = [vec![0], variable("deep", &[levels, vec![0]].concat()), vec![0]].concat();
    let small = std::thread::Builder::new().stack_size(64 * 1024);
    let read = small.spawn(move || {
        let snapshot = Snapshot::of_bytes(&bytes)?;
        let copy = snapshot.clone();
        Ok::<_, Error>((snapshot.value_count(), snapshot == copy))
    });
    let read = read.map(|thread| thread.join().expect("no panic"));
    assert_eq!(read.expect("a thread"), Ok((100_001, true)));
    Ok(())
}

#[test]
fn a_run_has_its_calls() -> Result<(), EvalError> {
    let engine = Engine::new();
    let ast = engine.compile("let n = 0;\nlet add = |by| {\n  n += by;\n};\nadd.call(2);\nn")?;
    let mut scope = Scope::new()?;
    let mut run = engine.start(&mut scope, &ast)?;
    run.stop_at_statements(true)?;
    while !matches!(run.go(1_000)?, Progress::Statement { line: 3, .. } | Progress::Done(_)) {}
    let snapshot = run.snapshot()?;
    let places: Vec<String> = snapshot.calls().map(|call| call.place().to_string()).collect();
    assert_eq!(places, ["in a closure (line 3, column 3)", "in the script (line 5, column 5)"]);
    assert_eq!((run.call_at(1), run.call_at(2)), (run.calls().pop(), None));
    let inner =
        snapshot.calls().next().map(|call| call.variables().map(|(name, value)| (name, value.shape())).collect::<Vec<_>>());
    assert_eq!(inner, Some(vec![("n", Shape::Cell(0)), ("by", Shape::Int(2))]));
    while !matches!(run.go(1_000)?, Progress::Done(_)) {}
    let ended = run.snapshot()?;
    assert!(!ended.is_of_run());
    drop(run);
    assert_eq!(ended, scope.snapshot()?);
    assert_eq!(scope.save()?.snapshot()?, ended);
    Ok(())
}
