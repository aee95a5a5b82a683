//! Copies of answers until an allocation fails: each fails with an error, and none ends the
//! program. A test does its work in a process of its own, with little address space.
#![cfg(target_os = "linux")]
use rhai_world::{Command, Error, Journal, Limits, Map, Script, ScriptError, Value, World};
use std::process::Command as Program;

const CHILD: &str = "RHAI_WORLD_CHILD";
const KILOBYTES: &str = "120000";

/// Does the work in a process of its own, which runs this test again.
fn in_little_room(test: &str, work: fn()) {
    if std::env::var_os(CHILD).is_some() {
        work();
        println!("refused as it should be");
        return;
    }
    let done = Program::new("sh")
        .args(["-c", "ulimit -v \"$1\" && exec \"$0\" --exact \"$2\" --nocapture --test-threads=1"])
        .arg(std::env::current_exe().unwrap())
        .args([KILOBYTES, test])
        .envs([(CHILD, "1"), ("MALLOC_ARENA_MAX", "1"), ("RUST_BACKTRACE", "0")])
        .output()
        .unwrap();
    let printed = String::from_utf8_lossy(&done.stdout);
    assert!(done.status.success(), "{}\n{printed}\n{}", done.status, String::from_utf8_lossy(&done.stderr));
    assert!(printed.contains("refused as it should be"), "{printed}");
}

/// Allocates all memory except about this many blocks of 64 KB.
fn all_but(blocks: usize) -> Vec<Vec<u8>> {
    let mut filler = Vec::with_capacity(10_000);
    loop {
        let mut block: Vec<u8> = Vec::new();
        if block.try_reserve_exact(64 << 10).is_err() {
            break;
        }
        filler.push(block);
    }
    filler.truncate(filler.len().saturating_sub(blocks));
    filler
}

/// Makes copies and keeps them until one fails, with this many blocks of memory left, and returns
/// how many there were.
fn until_refused<T>(blocks: usize, mut copy: impl FnMut() -> Result<T, Error>) -> usize {
    let mut copies = Vec::with_capacity(200_000);
    let filler = all_but(blocks);
    while copies.len() < copies.capacity() {
        match copy() {
            Ok(it) => copies.push(it),
            Err(error) => {
                let count = copies.len();
                drop((copies, filler));
                assert_eq!(error, Error::OutOfMemory, "after {count}");
                return count;
            }
        }
    }
    panic!("nothing was refused");
}

/// Many small parts, so that a small allocation is the one that fails.
fn small() -> Value {
    let text = |i: i64| Value::from(format!("text {i} of some letters").as_str());
    let fields: Map = (0..40).map(|i| (format!("key {i}"), vec![text(i), Value::from(vec![7_u8; 30])].into())).collect();
    vec![fields.into(), Value::FnPtr("function".into(), (0..40).map(text).collect()), Value::from(1)].into()
}

fn world() -> World {
    let mut world = World::new(Limits::default()).unwrap();
    world.put(&small()).unwrap();
    world
}

#[test]
fn values() {
    in_little_room("values", || {
        let world = world();
        assert!(until_refused(16, || world.value(0)) > 0);
        assert_eq!(world.value(0), Ok(Some(small())));
        assert!(until_refused(16, || world.hand().collect::<Result<Vec<_>, _>>()) > 0);
    });
}

#[test]
fn large_values() {
    in_little_room("large_values", || {
        let mut world = World::new(Limits::default()).unwrap();
        let large = Value::from((0..50_000).map(Value::from).collect::<Vec<_>>());
        world.put(&large).unwrap();
        world.put(&Value::from(vec![7_u8; 1 << 20])).unwrap();
        world.put(&Value::from("é".repeat(1 << 19))).unwrap();
        for i in 0..3 {
            assert!(until_refused(500, || world.value(i)) > 0);
            assert!(until_refused(500, || world.show(i)) > 0);
        }
        assert_eq!(world.value(0), Ok(Some(large)));
    });
}

#[test]
fn scopes() {
    in_little_room("scopes", || {
        let mut world = world();
        let x = world.name("a name that is longer than twenty-four bytes").unwrap();
        for _ in 0..20 {
            world.copy(0).unwrap();
            world.push(x, 1).unwrap();
            world.drop().unwrap();
        }
        assert!(until_refused(64, || world.scope()) > 0);
        assert_eq!((world.hand_len(), world.scope().map(|scope| scope.len())), (1, Ok(20)));
        assert!(until_refused(16, || world.show_scope()) > 0);
        assert!(until_refused(16, || world.hash_scope()) > 0);
        assert!(until_refused(16, || world.names()) > 0);
        assert!(until_refused(16, || world.name_text(x)) > 0);
    });
}

#[test]
fn texts() {
    in_little_room("texts", || {
        let mut world = world();
        let x = world.name("name_of_more_than_twenty_four_letters").unwrap();
        assert!(until_refused(16, || world.show(0)) > 0);
        assert!(until_refused(16, || world.debug(0)) > 0);
        assert!(until_refused(16, || world.hash(0)) > 0);
        assert!(until_refused(16, || world.type_name(0)) > 0);
        assert!(until_refused(16, || world.run_lines(b"text some text\nshow 0\n")) > 0);
        assert!(until_refused(16, || world.line_of(&Command::Get { name: x })) > 0);
        assert!(until_refused(16, || world.line("show 0")) > 0);
        let mut journal = Journal::new();
        let line = format!("text {}", "letters".repeat(100));
        assert!(until_refused(16, || journal.line(&mut world, &line)) > 0);
    });
}

#[test]
fn what_is_put() {
    in_little_room("what_is_put", || {
        let (mut world, value) = (world(), small());
        let count = until_refused(16, || world.put(&value));
        assert_eq!(world.hand_len(), count + 1);
        let mut names = World::new(Limits::default()).unwrap();
        assert!(until_refused(16, || names.name("a name that is longer than twenty-four bytes")) > 0);
    });
}

#[test]
fn scripts() {
    in_little_room("scripts", || {
        let run = || Script::run("let t = \"some text\"; loop { print(t); t += t; }", 1_000_000, Limits::default());
        let found = run();
        assert!(matches!(found, Err(ScriptError::Fault { .. } | ScriptError::OutOfMemory)));
        drop(found);
        assert_eq!(Script::run("print(1)", 1_000, Limits::default()).as_deref(), Ok("1\n"));
    });
}
