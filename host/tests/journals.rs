//! Commands as lines, and journals of them.
use rhai_world::{Answer, Command, Error, Journal, Limits, Name, Operator, Place, Type, World};

fn world() -> World {
    World::new(Limits::default()).unwrap()
}

#[test]
fn journals() {
    let (mut w, mut beside, mut journal) = (world(), world(), Journal::new());
    let (x, odd) = (w.name("x").unwrap(), w.name("an odd name").unwrap());
    let other = beside.name("x").unwrap();
    let commands = |x: Name| {
        [
            Command::PutInt { n: -7 },
            Command::PutI128 { n: i128::MIN },
            Command::PutChar { character: ' ' },
            Command::Share { i: 0 },
            Command::Push { name: x, i: 0 },
            Command::Assign { operator: Operator::PowerOfAssign, place: Place::Entry(x), j: 1 },
            Command::GetValue { name: x, kind: Type::ImmutableString },
            Command::Index { length: 4, index: -1, from_end: true },
            Command::WriteSlice { place: Place::Hand(2), start: 0, end: 1, exclusive: false, j: 1 },
            Command::Hash { i: 2 },
            Command::Drop {},
            Command::Names {},
        ]
    };
    for (command, other) in commands(x).into_iter().zip(commands(other)) {
        assert_eq!(journal.apply(&mut w, &command), beside.apply(&other));
    }
    assert_eq!(journal.line(&mut w, "text two words"), Ok(Answer::Done));
    assert_eq!(journal.line(&mut w, "no such line"), Err(Error::NoCommand));
    assert_eq!(journal.line(&mut w, "text two\nint 1"), Err(Error::NoCommand));
    assert_eq!(journal.apply(&mut w, &Command::Get { name: odd }), Err(Error::NoCommand));
    assert_eq!(journal.apply(&mut w, &Command::PutChar { character: '\n' }), Err(Error::NoCommand));
    assert_eq!(
        journal.lines(),
        "int -7\nhost i128 -170141183460469231731687303715884105728\nchar  \nshare 0\npush x 0\nassign @x **= 1\nvalue x string\n\
         index 4 -1 true\nsliceeq 2 0 1 1\nhash 2\ndrop\nnames\ntext two words\n"
    );
    let printed = "ok\nok\nok\nok\nok\nrefused NoBuiltin\nnone\n3\nrefused WrongSource\n0320000000\nok\nx\n\nok\n";
    assert_eq!(journal.replayed().as_deref(), Ok(printed.as_bytes()));
    assert_eq!(w.show(2).as_deref(), Ok("two words"));
}

/// Commands with their lines.
fn lines(x: Name, y: Name) -> Vec<(Command, &'static str)> {
    vec![
        (Command::PutText { text: "two words".into() }, "text two words"),
        (Command::PutText { text: String::new() }, "text"),
        (Command::PutBlob { bytes: vec![0, 255] }, "blob 00ff"),
        (Command::PutBlob { bytes: vec![] }, "blob"),
        (Command::MakeMap { keys: vec![x, y] }, "map x y_1"),
        (Command::MakeMap { keys: vec![] }, "map"),
        (Command::Extend { names: vec![y] }, "extend y_1"),
        (Command::ExtendFlagged { names: vec![(x, true)] }, "extendflagged !x"),
        (Command::SetAlias { name: x, alias: "z".into() }, "alias x z"),
        (Command::SetAlias { name: x, alias: String::new() }, "alias x"),
        (Command::Aliases { name: x }, "aliases x"),
    ]
}

#[test]
fn commands_with_texts_and_lists() {
    let (mut w, mut beside, mut journal) = (world(), world(), Journal::new());
    let names = |w: &mut World| (w.name("x").unwrap(), w.name("y_1").unwrap());
    let ((x, y), (u, v)) = (names(&mut w), names(&mut beside));
    for ((command, line), (other, _)) in lines(x, y).into_iter().zip(lines(u, v)) {
        assert_eq!(w.line_of(&command).as_deref(), Ok(line));
        assert_eq!(journal.apply(&mut w, &command), beside.apply(&other), "{line}");
    }
    assert_eq!(w.aliases(x).as_deref(), Ok("z\nx\n"));
    assert_eq!(w.show_scope(), beside.show_scope());
    let expected: String = lines(x, y).iter().map(|(_, line)| format!("{line}\n")).collect();
    assert_eq!(journal.lines(), expected);
}

#[test]
fn commands_without_lines() {
    let mut w = world();
    let (x, odd) = (w.name("x").unwrap(), w.name("x y").unwrap());
    for command in [
        Command::PutText { text: "two\nlines".into() },
        Command::Extend { names: vec![x, odd] },
        Command::MakeMap { keys: vec![odd] },
        Command::SetAlias { name: x, alias: "two words".into() },
        Command::SetAlias { name: odd, alias: "x".into() },
    ] {
        assert_eq!(w.line_of(&command), Err(Error::NoCommand), "{command:?}");
        assert_eq!(Journal::new().apply(&mut w, &command), Err(Error::NoCommand));
    }
    assert_eq!((w.hand_len(), w.len()), (0, Ok(0)));
}

/// The journal contains what the library writes: a number without leading zeros.
#[test]
fn lines_are_the_librarys() {
    let (mut w, mut journal) = (world(), Journal::new());
    assert_eq!(journal.line(&mut w, "int 007"), Ok(Answer::Done));
    assert_eq!(journal.line(&mut w, "blob 0A"), Ok(Answer::Done));
    assert_eq!((journal.lines(), journal.to_string().as_str()), ("int 7\nblob 0a\n", "int 7\nblob 0a\n"));
}
