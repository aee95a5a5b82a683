//! Each allocation failing in turn, and all from one on.
#![cfg(feature = "faults")]
use rhai_world::{
    refuse, Answer, Call, Command, Engine, Error, EvalError, Function, Journal, Limits, Name, Operator, Place, Progress, Scope,
    Script, ScriptError, Type, World,
};

fn script(x: Name) -> Vec<Command> {
    vec![
        Command::PutInt { n: 1 },
        Command::Share { i: 0 },
        Command::Copy { i: 0 },
        Command::PutI128 { n: i128::MIN },
        Command::Push { name: x, i: 1 },
        Command::Get { name: x },
        Command::Contains { name: x },
        Command::Assign { operator: Operator::PlusAssign, place: Place::Entry(x), j: 0 },
        Command::GetValue { name: x, kind: Type::Int },
        Command::MakeArray { count: 3 },
        Command::FlattenClone { i: 0 },
        Command::Show { i: 0 },
        Command::Debug { i: 1 },
        Command::Hash { i: 0 },
        Command::Mark { place: Place::Hand(0) },
        Command::ReadMarked { mark: 0 },
        Command::Unmark { mark: 0 },
        Command::Names {},
        Command::ShowScope {},
        Command::CopyScope {},
        Command::KeepVisible {},
        Command::Entries {},
        Command::Cast { i: 0, kind: Type::Int },
        Command::TypeName { i: 0 },
        Command::AsInt { i: 99 },
        Command::MakeFn { name: x, count: 0 },
        Command::Remove { name: x, kind: Type::Int },
        Command::Pop {},
        Command::PutText { text: "a text that is longer than twenty-four bytes".into() },
        Command::PutBlob { bytes: vec![1; 40] },
        Command::MakeMap { keys: vec![x] },
        Command::Extend { names: vec![x] },
        Command::SetAlias { name: x, alias: "an alias that is longer than twenty-four bytes".into() },
        Command::Entries {},
        Command::ExtendFlagged { names: vec![(x, true)] },
    ]
}

fn world() -> Result<(World, Name), Error> {
    let mut world = World::new(Limits::default())?;
    let x = world.name("a name that is longer than twenty-four bytes")?;
    Ok((world, x))
}

/// The answers, each requested again in the same world if an allocation failed, and how often that
/// happened.
fn answers(world: &mut World, x: Name) -> (Vec<Result<Answer, Error>>, usize) {
    let mut refused = 0;
    let answers = script(x)
        .into_iter()
        .map(|command| {
            let answer = world.apply(&command);
            if answer != Err(Error::OutOfMemory) {
                return answer;
            }
            refused += 1;
            world.apply(&command)
        })
        .collect();
    (answers, refused)
}

#[test]
fn each_request_in_turn() {
    let ((expected, refused), asked) = refuse(u64::MAX, false, || {
        let (mut world, x) = world().unwrap();
        answers(&mut world, x)
    });
    assert_eq!(refused, 0);
    assert!(asked > 10, "{asked}");
    for nth in 0..asked {
        let ((found, refused), _) = refuse(nth, false, || {
            let (mut world, x) = match world() {
                Ok(it) => it,
                Err(error) => {
                    assert_eq!(error, Error::OutOfMemory);
                    world().unwrap()
                }
            };
            answers(&mut world, x)
        });
        assert!(refused <= 1);
        assert_eq!(found, expected, "request {nth}");
    }
}

#[test]
fn all_requests_from_one_on() {
    let (_, asked) = refuse(u64::MAX, false, || {
        let (mut world, x) = world().unwrap();
        answers(&mut world, x)
    });
    let free = |world: &mut World, x: Name| {
        assert_eq!(world.apply(&Command::Rewind { count: usize::MAX }), Ok(Answer::Done));
        assert!(world.apply(&Command::Contains { name: x }).is_ok());
        assert!(world.apply(&Command::Len {}).is_ok());
    };
    for nth in 0..asked {
        let (world, _) = refuse(nth, true, || {
            let Ok((mut world, x)) = world() else { return None };
            for command in script(x) {
                let _ = world.apply(&command);
                free(&mut world, x);
            }
            Some((world, x))
        });
        if let Some((mut world, x)) = world {
            world.put_int(1).unwrap();
            free(&mut world, x);
        }
    }
}

const SCRIPT: &str =
    "let words = []; for i in 0..9 { words.push(`word` + i); print(words); } let m = #{a: words}; print(m.a[8]); m.b.c";

#[test]
fn scripts() {
    let script = SCRIPT.replace('`', "\"");
    let run = || Script::run(&script, 100_000, Limits::default());
    let (expected, asked) = refuse(u64::MAX, false, run);
    assert!(matches!(expected, Err(ScriptError::Fault { .. })), "{expected:?}");
    assert!(asked > 50, "{asked}");
    let mut stopped = 0;
    for nth in 0..asked {
        for lasts in [false, true] {
            match refuse(nth, lasts, run).0 {
                Err(ScriptError::OutOfMemory) => stopped += 1,
                // A few allocations are for optional work, such as a collection.
                found => assert_eq!(found, expected, "request {nth}"),
            }
            assert_eq!(run(), expected);
        }
    }
    assert!(stopped > 2 * asked - asked / 4, "{stopped} of {}", 2 * asked);
}

#[test]
fn looks_and_journals() {
    let work = |world: &mut World, x: Name, journal: &mut Journal| -> Result<(), Error> {
        for command in
            [Command::PutInt { n: 1 }, Command::Push { name: x, i: 0 }, Command::Get { name: x }, Command::Debug { i: 0 }]
        {
            journal.apply(world, &command)?;
        }
        assert_eq!(world.scope()?.map(|entry| entry.name).collect::<Vec<_>>(), [world.name_text(x)?]);
        assert_eq!(journal.replayed()?, b"ok\nok\nok\n()\n");
        Ok(())
    };
    let new = || {
        let mut world = World::new(Limits::default()).unwrap();
        let x = world.name("a_name_that_is_longer_than_twenty_four_bytes").unwrap();
        (world, x, Journal::new())
    };
    let (mut world, x, mut journal) = new();
    let (done, asked) = refuse(u64::MAX, false, || work(&mut world, x, &mut journal));
    assert_eq!(done, Ok(()));
    let hand = world.hand_len();
    for nth in 0..asked {
        let (mut world, x, mut journal) = new();
        assert_eq!(refuse(nth, true, || work(&mut world, x, &mut journal)).0, Err(Error::OutOfMemory), "request {nth}");
        assert!(world.hand_len() <= hand);
        let lines = journal.lines().lines().count();
        assert!(
            lines <= 4 && journal.replayed().is_ok_and(|printed| printed.iter().filter(|&&byte| byte == b'\n').count() == lines)
        );
    }
}

/// A run over a scope: its functions, variables, errors and output.
const EMBEDDED: &str = "
    let words = []; for i in 0..5 { words.push(`word` + i); } let add = |by| total += by; add.call(words.len());
    let told = 0; try { told = ask(total); } catch (why) { told = why; } print(told); fn twice(n) { n * 2 } twice(total)";

#[test]
fn runs_over_scopes() {
    let mut engine = Engine::new();
    engine.on_print(|_| {}).register_fn("ask", |n: i64| if n == 5 { Err("it is five".to_owned()) } else { Ok(n) });
    let new = || {
        let mut scope = Scope::new().unwrap();
        scope.push("total", 0).unwrap();
        scope
    };
    let mut scope = new();
    let ast = engine.compile_with_scope(&scope, &EMBEDDED.replace('`', "\"")).unwrap();
    let (expected, asked) = refuse(u64::MAX, false, || engine.eval_ast_with_scope::<i64>(&mut scope, &ast));
    assert_eq!(expected, Ok(10));
    let mut stopped = 0;
    for nth in 0..asked {
        for lasts in [false, true] {
            let mut scope = new();
            let (found, _) = refuse(nth, lasts, || engine.eval_ast_with_scope::<i64>(&mut scope, &ast));
            match found {
                Err(EvalError::OutOfMemory { .. }) => stopped += 1,
                // A few allocations are for optional work, such as a collection.
                found => assert_eq!(found, expected, "request {nth}"),
            }
            let total = scope.get::<i64>("total");
            assert!(matches!(total, Some(0 | 5)), "request {nth}: {total:?}");
            scope.rewind(1).unwrap();
            scope.set("total", 0).unwrap();
            assert_eq!(engine.eval_ast_with_scope::<i64>(&mut scope, &ast), expected, "after request {nth}");
        }
    }
    assert!(stopped > asked, "{stopped} of {}", 2 * asked);
}

/// Functions of a script that the program calls, keeps and receives, and a first argument that is
/// changed.
const CALLED_BACK: &str = "
    let words = []; each([1, 2, 3], |n| { total += n; words.add(`word number ` + n); });
    try { each([4], |n| { throw n + words.len(); }); } catch (why) { total += why; }
    words.add(`another word that is longer`); let f = same(|n| { total += n; words.len() }); f.call(1); f";

#[test]
fn functions_in_the_programs_hands() {
    let mut engine = Engine::new();
    engine
        .register_fn("each", |call: &mut Call, items: Vec<i64>, f: Function| -> Result<(), EvalError> {
            items.into_iter().try_for_each(|item| call.call(&f, (item,)))
        })
        .register_fn("add", |words: &mut Vec<String>, word: String| words.push(word))
        .register_fn("same", |f: Function| f);
    let new = || {
        let mut scope = Scope::new().unwrap();
        scope.push("total", 0).unwrap();
        scope
    };
    let mut scope = new();
    let ast = engine.compile_with_scope(&scope, &CALLED_BACK.replace('`', "\"")).unwrap();
    let run = |scope: &mut Scope| {
        let f: Function = engine.eval_ast_with_scope(scope, &ast)?;
        f.call::<i64>(&engine, scope, &ast, (2,))
    };
    let (expected, asked) = refuse(u64::MAX, false, || run(&mut scope));
    assert_eq!(expected, Ok(4));
    assert_eq!(scope.get::<i64>("total"), Some(16));
    let mut stopped = 0;
    for nth in 0..asked {
        for lasts in [false, true] {
            let mut scope = new();
            let (found, _) = refuse(nth, lasts, || run(&mut scope));
            match found {
                Err(EvalError::OutOfMemory { .. }) => stopped += 1,
                found => assert_eq!(found, expected, "request {nth}"),
            }
            scope.rewind(1).unwrap();
            scope.set("total", 0).unwrap();
            assert_eq!(run(&mut scope), expected, "after request {nth}");
            assert_eq!(scope.get::<i64>("total"), Some(16), "after request {nth}");
        }
    }
    assert!(stopped > asked, "{stopped} of {}", 2 * asked);
}

/// Makes variables that share places.
const SHARED: &str = "
    let words = [`a word that is longer than twenty-four bytes`]; let add = |word| { words.push(word); total += 1; };
    let fields = #{add: add, count: || total}; add.call(`another word that is longer than others`);";

#[test]
fn saved_scopes() {
    let engine = Engine::new();
    let mut scope = Scope::of([("total", 0)]).unwrap();
    engine.run_with_scope(&mut scope, &SHARED.replace('`', "\"")).unwrap();
    let (expected, saving) = refuse(u64::MAX, false, || scope.save());
    let saved = expected.clone().unwrap();
    let (restored, restoring) = refuse(u64::MAX, false, || saved.restore());
    assert_eq!((restored.unwrap().save(), saving > 1, restoring > 10), (expected.clone(), true, true));
    let mut stopped = 0;
    for nth in 0..saving.max(restoring) {
        for lasts in [false, true] {
            let (found, _) = refuse(nth, lasts, || scope.save());
            stopped += u64::from(matches!(found, Err(EvalError::OutOfMemory { .. })));
            assert!(found == expected || matches!(found, Err(EvalError::OutOfMemory { .. })), "request {nth}: {found:?}");
            assert_eq!(scope.save(), expected, "after request {nth}");
            let (found, _) = refuse(nth, lasts, || saved.restore());
            stopped += u64::from(matches!(found, Err(EvalError::OutOfMemory { .. })));
            assert!(matches!(found, Ok(_) | Err(EvalError::OutOfMemory { .. })), "request {nth}: {found:?}");
            assert!(found.is_err() || found.unwrap().save() == expected, "request {nth}");
        }
    }
    assert!(stopped > saving + restoring, "{stopped} of {}", 2 * (saving + restoring));
}

#[test]
fn a_paused_run_is_looked_into() {
    let engine = Engine::new();
    let text = "fn f(words) {\n    let more = words + words;\n    more.len()\n}\nlet words = [`a word that is longer than twenty-four bytes`];\nf(words)";
    let ast = engine.compile(&text.replace('`', "\"")).unwrap();
    let mut scope = Scope::new().unwrap();
    let mut run = engine.start(&mut scope, &ast).unwrap();
    run.stop_at_statements(true).unwrap();
    while !matches!(run.go(1_000).unwrap(), Progress::Statement { line: 3, .. }) {}
    let (expected, asked) = refuse(u64::MAX, false, || (run.calls(), run.variables(0), run.variables(1)));
    assert_eq!((expected.0.len(), expected.1.as_ref().map(Vec::len), expected.2.as_ref().map(Vec::len)), (2, Ok(2), Ok(1)));
    let is_refused = |found: &Result<_, _>| matches!(found, Err(EvalError::OutOfMemory { .. }));
    for nth in 0..asked {
        for lasts in [false, true] {
            let ((calls, inner, outer), _) = refuse(nth, lasts, || (run.calls(), run.variables(0), run.variables(1)));
            assert!(expected.0.starts_with(&calls), "request {nth}: {calls:?}");
            assert!(inner == expected.1 || is_refused(&inner), "request {nth}: {inner:?}");
            assert!(outer == expected.2 || is_refused(&outer), "request {nth}: {outer:?}");
            assert!(calls != expected.0 || is_refused(&inner) || is_refused(&outer), "request {nth}");
            assert_eq!((run.calls(), run.variables(0), run.variables(1)), expected, "after request {nth}");
        }
    }
    assert_eq!(run.go(1_000), Ok(Progress::Done(2.into())));
}

#[test]
fn no_script_catches_a_failed_allocation() {
    let mut engine = Engine::new();
    engine.register_fn("by_name", |call: &mut Call, name: String, n: i64| call.call_fn::<i64>(&name, (n,)));
    engine.register_fn("apply", |call: &mut Call, f: Function| call.call::<i64>(&f, ()));
    let text = "fn one(p) { p + 1 } let n = 0; try { n = by_name(`one`, 1); } catch { }
        try { apply(|| { throw [`thrown`]; }) } catch (e) { if type_of(e) == `string` { 0 } else { n } }";
    let ast = engine.compile(&text.replace('`', "\"")).unwrap();
    let run = |scope: &mut Scope| engine.eval_ast_with_scope::<i64>(scope, &ast);
    let (expected, asked) = refuse(u64::MAX, false, || run(&mut Scope::new().unwrap()));
    assert_eq!(expected, Ok(2));
    for nth in 0..asked {
        for lasts in [false, true] {
            let mut scope = Scope::new().unwrap();
            let (found, _) = refuse(nth, lasts, || run(&mut scope));
            assert!(matches!(found, Ok(2) | Err(EvalError::OutOfMemory { .. })), "request {nth}: {found:?}");
        }
    }
}
