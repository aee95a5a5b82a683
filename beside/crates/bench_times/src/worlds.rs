//! Commands over one world.

use rhai_run::{Answer, Command, Literal, Place, Question, World, apply, run};
use rhai_text::{ImmutableString, Limits, Token};
use std::alloc::{AllocError, Global};

/// Makes a list of commands that leaves the hand unchanged.
fn commands(alloc: Global, kind: u32) -> Result<Vec<Command>, AllocError> {
    let mut commands = Vec::with_capacity(alloc, 1792)?;
    for i in 0..256 {
        match kind {
            0 => {
                commands.push(Command::Put(Literal::Int(i)))?;
                commands.push(Command::Copy(0))?;
                commands.push(Command::Drop)?;
                commands.push(Command::Drop)?;
            }
            1 => {
                commands.push(Command::WriteInt(0, i))?;
                commands.push(Command::Ask(1, Question::Int))?;
                commands.push(Command::WriteInt(1, i))?;
                commands.push(Command::Ask(0, Question::Int))?;
            }
            2 => {
                let name = ImmutableString::from_str(alloc, "counter")?;
                commands.push(Command::Copy(0))?;
                commands.push(Command::Push(name.copy(alloc)?, 2))?;
                commands.push(Command::Get(name))?;
                commands.push(Command::Rewind(0))?;
                commands.push(Command::Drop)?;
                commands.push(Command::Drop)?;
            }
            3 => {
                commands.push(Command::Show(0))?;
                commands.push(Command::Put(Literal::Int(i)))?;
                commands.push(Command::Show(2))?;
                commands.push(Command::Drop)?;
            }
            _ => {
                commands.push(Command::Put(Literal::Int(i)))?;
                commands.push(Command::Put(Literal::Int(3)))?;
                commands.push(Command::Binary(Token::Plus, 2, 3))?;
                commands.push(Command::Assign(Token::PlusAssign, Place::Hand(4), 3))?;
                commands.push(Command::Drop)?;
                commands.push(Command::Drop)?;
                commands.push(Command::Drop)?;
            }
        }
    }
    Ok(commands)
}

fn told(answer: &Answer) -> u64 {
    match answer {
        Answer::Done => 1,
        Answer::Bool(truth) => u64::from(*truth),
        Answer::Int(_) => 2,
        Answer::Text(text) => text.as_str().len() as u64,
        Answer::Bytes(bytes) => bytes.as_slice().len() as u64,
        Answer::Pair(first, second) => (*first as u64).wrapping_add(*second as u64),
        Answer::Nothing => 3,
        Answer::Refused(_) => 1000,
    }
}

fn prepare(world: &mut World) -> Result<(), AllocError> {
    let _ = apply(world, &Command::Put(Literal::Int(1)))?;
    let _ = apply(world, &Command::Share(0))?;
    let _ = apply(world, &Command::Copy(0))?;
    Ok(())
}

fn applied(world: &mut World, commands: &[Command], n: usize) -> Result<u64, AllocError> {
    prepare(world)?;
    let mut sum = 0_u64;
    for _ in 0..n {
        for command in commands {
            sum = sum.wrapping_add(told(&apply(world, command)?));
        }
    }
    Ok(sum)
}

fn ran(world: &mut World, commands: &[Command], n: usize) -> Result<u64, AllocError> {
    prepare(world)?;
    let mut sum = 0_u64;
    for _ in 0..n {
        match run(world, commands) {
            Ok(answers) => {
                for answer in &answers {
                    sum = sum.wrapping_add(told(answer));
                }
            }
            Err(_) => return Err(AllocError),
        }
    }
    Ok(sum)
}

/// Applies the commands one by one.
#[inline(never)]
pub(crate) fn apply_all(alloc: Global, kind: u32, n: usize) -> Result<u64, AllocError> {
    let commands = commands(alloc, kind)?;
    let mut world = World::new(alloc, Limits { text: 0, items: 0 });
    let sum = applied(&mut world, &commands, n);
    world.close();
    sum
}

/// Runs the commands as a list.
#[inline(never)]
pub(crate) fn run_all(alloc: Global, kind: u32, n: usize) -> Result<u64, AllocError> {
    let commands = commands(alloc, kind)?;
    let mut world = World::new(alloc, Limits { text: 0, items: 0 });
    let sum = ran(&mut world, &commands, n);
    world.close();
    sum
}
