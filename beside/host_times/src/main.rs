//! The commands of beside/crates/bench_times/src/worlds.rs from Rust, by the crate `rhai-world`.
//!
//! Usage: host_times time SIDE KIND ROUNDS prints the nanoseconds of ROUNDS rounds, minus those of none, and their checksum;
//! host_times one SIDE KIND ROUNDS does them once, for valgrind. SIDE is `methods`, or `commands` for `Command` and `Answer`.
//! host_times embedding ROUNDS measures what a script engine costs its host, as `embedding/lua.c` does.

#[path = "../../times/src/clock.rs"]
mod clock;
mod embedding;

use rhai_world::{Answer, Command, Error, Limits, Name, Operator, Place, World};

/// A world as each workload finds it, and a name in it.
fn prepared() -> Result<(World, Name), Error> {
    let mut world = World::new(Limits::default())?;
    world.put_int(1)?;
    world.share(0)?;
    world.copy(0)?;
    let name = world.name("counter")?;
    Ok((world, name))
}

#[inline(never)]
fn put_copy_drop(world: &mut World, i: i64) -> Result<u64, Error> {
    world.put_int(i)?;
    world.copy(0)?;
    world.drop()?;
    world.drop()?;
    Ok(4)
}

#[inline(never)]
fn write_ask(world: &mut World, i: i64) -> Result<u64, Error> {
    let told = |n| if n == i { 2 } else { 1000 };
    world.write_int(0, i)?;
    let first = told(world.as_int(1)?);
    world.write_int(1, i)?;
    Ok(2 + first + told(world.as_int(0)?))
}

#[inline(never)]
fn push_get_rewind(world: &mut World, name: Name) -> Result<u64, Error> {
    world.copy(0)?;
    world.push(name, 2)?;
    world.get(name)?;
    world.rewind(0)?;
    world.drop()?;
    world.drop()?;
    Ok(6)
}

#[inline(never)]
fn show(world: &mut World, i: i64, text: &mut String) -> Result<u64, Error> {
    world.show_into(0, text)?;
    let first = text.len();
    world.put_int(i)?;
    world.show_into(2, text)?;
    world.drop()?;
    Ok(2 + (first + text.len()) as u64)
}

#[inline(never)]
fn operators(world: &mut World, i: i64) -> Result<u64, Error> {
    world.put_int(i)?;
    world.put_int(3)?;
    world.binary(Operator::Plus, 2, 3)?;
    world.assign(Operator::PlusAssign, Place::Hand(4), 3)?;
    world.drop()?;
    world.drop()?;
    world.drop()?;
    Ok(7)
}

fn by_methods(kind: u32, rounds: usize) -> Result<u64, Error> {
    let (mut world, name) = prepared()?;
    let (mut sum, mut text) = (0_u64, String::new());
    for _ in 0..rounds {
        for i in 0..256 {
            sum = sum.wrapping_add(match kind {
                0 => put_copy_drop(&mut world, i)?,
                1 => write_ask(&mut world, i)?,
                2 => push_get_rewind(&mut world, name)?,
                3 => show(&mut world, i, &mut text)?,
                _ => operators(&mut world, i)?,
            });
        }
    }
    Ok(sum)
}

fn commands(kind: u32, name: Name) -> Vec<Command> {
    let of = |i: i64| match kind {
        0 => vec![Command::PutInt { n: i }, Command::Copy { i: 0 }, Command::Drop {}, Command::Drop {}],
        1 => vec![
            Command::WriteInt { i: 0, n: i },
            Command::AsInt { i: 1 },
            Command::WriteInt { i: 1, n: i },
            Command::AsInt { i: 0 },
        ],
        2 => vec![
            Command::Copy { i: 0 },
            Command::Push { name, i: 2 },
            Command::Get { name },
            Command::Rewind { count: 0 },
            Command::Drop {},
            Command::Drop {},
        ],
        3 => vec![Command::Show { i: 0 }, Command::PutInt { n: i }, Command::Show { i: 2 }, Command::Drop {}],
        _ => vec![
            Command::PutInt { n: i },
            Command::PutInt { n: 3 },
            Command::Binary { operator: Operator::Plus, i: 2, j: 3 },
            Command::Assign { operator: Operator::PlusAssign, place: Place::Hand(4), j: 3 },
            Command::Drop {},
            Command::Drop {},
            Command::Drop {},
        ],
    };
    (0..256).flat_map(of).collect()
}

fn told(answer: &Answer) -> u64 {
    match answer {
        Answer::Done => 1,
        Answer::Bool(truth) => u64::from(*truth),
        Answer::Int(_) => 2,
        Answer::Text(text) => text.len() as u64,
        Answer::Bytes(bytes) => bytes.len() as u64,
        Answer::Pair(first, second) => (first + second) as u64,
        Answer::Nothing => 3,
        other => panic!("an answer of another kind: {other:?}"),
    }
}

fn by_commands(kind: u32, rounds: usize) -> Result<u64, Error> {
    let (mut world, name) = prepared()?;
    let commands = commands(kind, name);
    let mut sum = 0_u64;
    for _ in 0..rounds {
        for command in &commands {
            sum = sum.wrapping_add(told(&world.apply(command)?));
        }
    }
    Ok(sum)
}

fn main() {
    let words: Vec<String> = std::env::args().collect();
    if let [_, what, rounds] = words.as_slice() {
        assert_eq!(what, "embedding", "host_times embedding ROUNDS");
        return embedding::embedding(rounds.parse().expect("a number")).expect("no run fails");
    }
    let [_, what, side, kind, rounds] = words.as_slice() else {
        panic!("host_times time|one methods|commands KIND ROUNDS");
    };
    let work = if side == "methods" { by_methods } else { by_commands };
    let (kind, rounds) = (kind.parse().expect("a number"), rounds.parse().expect("a number"));
    let timed = |rounds| {
        let start = clock::now();
        let sum = work(kind, rounds).expect("no command is refused");
        (clock::now() - start, sum)
    };
    if what == "one" {
        std::hint::black_box(timed(rounds));
        return;
    }
    let set_up = timed(0).0;
    let (taken, sum) = timed(rounds);
    println!("{} {sum}", taken.saturating_sub(set_up));
}
