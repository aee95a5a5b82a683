//! Commands over one world, whose answers have 64 bytes.

use crate::value::{Fault, Host, Mode, Text, Value};
use std::hint::black_box;

/// A value that a command makes.
#[repr(u8)]
pub enum Literal {
    Int(i64),
    Text(Text),
    Host(Host),
}

#[repr(u8)]
pub enum Command {
    Put(Literal),
    Copy(usize),
    Drop,
    Share(usize),
    AskInt(usize),
    WriteInt(usize, i64),
    Push(Text, usize),
    Rewind(usize),
    Get(Text),
    Show(usize),
}

#[repr(u8)]
pub enum Refusal {
    NoValue,
    NoEntry,
    Mismatch(&'static str),
    Fault(Fault),
}

#[repr(u8)]
pub enum Answer {
    Done,
    Int(i128),
    Text(String),
    Refused(Refusal),
}

const _: () = assert!(size_of::<Answer>() == 64 && size_of::<Command>() == 64);

struct Entry {
    name: Text,
    value: Value,
    aliases: Vec<Text>,
}

#[derive(Default)]
struct World {
    cells: Vec<Value>,
    entries: Vec<Entry>,
    hand: Vec<Value>,
}

/// An allocation failed.
struct Stopped;

impl From<std::collections::TryReserveError> for Stopped {
    fn from(_: std::collections::TryReserveError) -> Self {
        Stopped
    }
}

/// A copy of an int or of a holder.
#[inline(always)]
fn light_copy(value: &Value) -> Option<Value> {
    match value {
        Value::Int(tag, _, n) => Some(Value::Int(*tag, Mode::ReadWrite, *n)),
        Value::Shared(tag, _, cell) => Some(Value::Shared(*tag, Mode::ReadWrite, *cell)),
        _ => None,
    }
}

const NO_VALUE: Result<Answer, Stopped> = Ok(Answer::Refused(Refusal::NoValue));

impl World {
    #[inline(always)]
    fn append(&mut self, value: Value) -> Result<Answer, Stopped> {
        self.hand.try_reserve(1)?;
        self.hand.push(value);
        Ok(Answer::Done)
    }

    #[inline(always)]
    fn append_and_tell(&mut self, value: Value, answer: &mut Answer) -> Result<(), Stopped> {
        self.hand.try_reserve(1)?;
        self.hand.push(value);
        *answer = Answer::Done;
        Ok(())
    }

    #[inline(always)]
    fn copy(&mut self, i: usize) -> Result<Answer, Stopped> {
        match self.hand.get(i) {
            None => NO_VALUE,
            Some(Value::Int(tag, _, n)) => self.append(Value::Int(*tag, Mode::ReadWrite, *n)),
            Some(Value::Shared(tag, _, cell)) => self.append(Value::Shared(*tag, Mode::ReadWrite, *cell)),
            Some(value) => match value.copy() {
                None => Err(Stopped),
                Some(value) => self.append(value),
            },
        }
    }

    fn share(&mut self, i: usize) -> Result<Answer, Stopped> {
        let Some(value) = self.hand.get_mut(i) else {
            return NO_VALUE;
        };
        self.cells.try_reserve(1)?;
        let holder = Value::Shared(0, Mode::ReadWrite, self.cells.len());
        self.cells.push(std::mem::replace(value, holder));
        Ok(Answer::Done)
    }

    #[inline(always)]
    fn ask(&self, i: usize) -> Answer {
        match self.hand.get(i).map(|value| value.held_int(&self.cells)) {
            None => Answer::Refused(Refusal::NoValue),
            Some(Ok(n)) => Answer::Int(i128::from(n)),
            Some(Err(name)) => Answer::Refused(Refusal::Mismatch(name)),
        }
    }

    #[inline(always)]
    fn write(&mut self, i: usize, n: i64) -> Answer {
        let place = match self.hand.get_mut(i) {
            None => return Answer::Refused(Refusal::NoValue),
            Some(Value::Shared(_, _, cell)) => self.cells.get_mut(*cell),
            own => own,
        };
        match place {
            Some(Value::Int(_, _, own)) => {
                *own = n;
                Answer::Done
            }
            Some(_) => Answer::Refused(Refusal::Mismatch("()")),
            None => Answer::Refused(Refusal::Fault(Fault::Mismatch("i64", "<shared>", (0, 0)))),
        }
    }

    #[inline(always)]
    fn push(&mut self, name: &Text, i: usize) -> Result<Answer, Stopped> {
        let Some(value) = self.hand.get_mut(i) else {
            return NO_VALUE;
        };
        self.entries.try_reserve(1)?;
        let value = std::mem::replace(value, Value::UNIT);
        self.entries.push(Entry { name: name.clone(), value, aliases: Vec::new() });
        Ok(Answer::Done)
    }

    #[inline(always)]
    fn get(&mut self, name: &Text) -> Result<Answer, Stopped> {
        match self.entries.iter().rev().find(|entry| entry.name.bytes() == name.bytes()) {
            None => Ok(Answer::Refused(Refusal::NoEntry)),
            Some(entry) => match entry.value.copy() {
                None => Err(Stopped),
                Some(value) => self.append(value),
            },
        }
    }

    fn show(&self, i: usize) -> Result<Answer, Stopped> {
        match self.hand.get(i).map(|value| value.held_int(&self.cells)) {
            None => NO_VALUE,
            Some(Err(name)) => Ok(Answer::Refused(Refusal::Mismatch(name))),
            Some(Ok(n)) => {
                let shared = matches!(self.hand.get(i), Some(Value::Shared(..)));
                Ok(Answer::Text(n.to_string() + if shared { " (shared)" } else { "" }))
            }
        }
    }

    #[inline(always)]
    fn apply(&mut self, command: &Command) -> Result<Answer, Stopped> {
        match command {
            Command::Put(Literal::Int(n)) => self.append(Value::int(*n)),
            Command::Put(Literal::Text(text)) => self.append(Value::text(text.clone())),
            Command::Put(Literal::Host(host)) => self.append(Value::Host(0, Mode::ReadWrite, *host)),
            Command::Copy(i) => self.copy(*i),
            Command::Drop => match self.hand.len().checked_sub(1) {
                None => NO_VALUE,
                Some(last) => {
                    self.hand.truncate(last);
                    Ok(Answer::Done)
                }
            },
            Command::Share(i) => self.share(*i),
            Command::AskInt(i) => Ok(self.ask(*i)),
            Command::WriteInt(i, n) => Ok(self.write(*i, *n)),
            Command::Push(name, i) => self.push(name, *i),
            Command::Rewind(len) => {
                self.entries.truncate(*len);
                Ok(Answer::Done)
            }
            Command::Get(name) => self.get(name),
            Command::Show(i) => self.show(*i),
        }
    }
}

impl Entry {
    #[inline(never)]
    fn says_alias(&self) -> bool {
        self.aliases.iter().any(|alias| alias.bytes().is_empty())
    }
}

fn commands(kind: u32) -> Vec<Command> {
    let mut commands = Vec::with_capacity(1536);
    for i in 0..256 {
        match kind {
            0 => commands.extend([Command::Put(Literal::Int(i)), Command::Copy(0), Command::Drop, Command::Drop]),
            1 => commands.extend([Command::WriteInt(0, i), Command::AskInt(1), Command::WriteInt(1, i), Command::AskInt(0)]),
            2 => {
                let name = Text::new("counter");
                commands.extend([Command::Copy(0), Command::Push(name.clone(), 2), Command::Get(name)]);
                commands.extend([Command::Rewind(0), Command::Drop, Command::Drop]);
            }
            _ => commands.extend([Command::Show(0), Command::Put(Literal::Int(i)), Command::Show(2), Command::Drop]),
        }
    }
    commands
}

fn told(answer: &Answer) -> u64 {
    match answer {
        Answer::Done => 1,
        Answer::Int(_) => 2,
        Answer::Text(text) => text.len() as u64,
        Answer::Refused(_) => 1000,
    }
}

fn world() -> Result<World, Stopped> {
    let mut world = World::default();
    for command in [Command::Put(Literal::Int(1)), Command::Share(0), Command::Copy(0)] {
        world.apply(&command)?;
    }
    Ok(world)
}

#[inline(never)]
fn apply_called(world: &mut World, command: &Command) -> Result<Answer, Stopped> {
    world.apply(command)
}

/// The answer is written over the one that is there: an int or that it is done by itself, others as a whole.
#[inline(never)]
fn apply_into(world: &mut World, command: &Command, answer: &mut Answer) -> Result<(), Stopped> {
    match command {
        Command::Put(Literal::Int(n)) => world.append_and_tell(Value::int(*n), answer)?,
        Command::Copy(i) => match world.hand.get(*i).and_then(light_copy) {
            Some(value) => world.append_and_tell(value, answer)?,
            None => *answer = world.copy(*i)?,
        },
        Command::Drop => match world.hand.pop() {
            Some(_) => *answer = Answer::Done,
            None => *answer = Answer::Refused(Refusal::NoValue),
        },
        Command::AskInt(i) => *answer = world.ask(*i),
        Command::WriteInt(i, n) => *answer = world.write(*i, *n),
        _ => *answer = world.apply(command)?,
    }
    Ok(())
}

fn after(sum: u64, world: &World) -> u64 {
    sum.wrapping_add(u64::from(world.entries.iter().any(Entry::says_alias)))
}

#[inline(always)]
fn applied(kind: u32, n: usize, mut apply: impl FnMut(&mut World, &Command) -> Result<u64, Stopped>) -> Result<u64, Stopped> {
    let (commands, mut world) = (commands(kind), world()?);
    let mut sum = 0_u64;
    for _ in 0..n {
        for command in black_box(&commands) {
            sum = sum.wrapping_add(apply(&mut world, command)?);
        }
    }
    Ok(after(sum, &world))
}

#[inline(always)]
fn ran(
    kind: u32,
    n: usize,
    run: impl Fn(&mut World, &[Command], &mut Vec<Answer>) -> Result<(), Stopped>,
) -> Result<u64, Stopped> {
    let (commands, mut world) = (commands(kind), world()?);
    let mut sum = 0_u64;
    for _ in 0..n {
        let mut answers = Vec::new();
        answers.try_reserve_exact(commands.len())?;
        run(&mut world, black_box(&commands), &mut answers)?;
        sum = answers.iter().fold(sum, |sum, answer| sum.wrapping_add(told(answer)));
    }
    Ok(after(sum, &world))
}

/// Rows 1000 to 1003, the commands inlined.
pub fn apply_inlined(kind: u32, n: usize) -> u64 {
    applied(kind, n, |world, command| world.apply(command).map(|answer| told(&answer))).unwrap_or(u64::MAX)
}

/// The same by calls, which return each answer.
pub fn apply_by_calls(kind: u32, n: usize) -> u64 {
    applied(kind, n, |world, command| apply_called(world, command).map(|answer| told(&answer))).unwrap_or(u64::MAX)
}

/// The same by calls, which write each answer into one place.
pub fn apply_into_place(kind: u32, n: usize) -> u64 {
    let mut answer = Answer::Done;
    let apply = |world: &mut World, command: &Command| apply_into(world, command, &mut answer).map(|()| told(&answer));
    applied(kind, n, apply).unwrap_or(u64::MAX)
}

/// Rows 1100 and 1101: all answers are kept.
pub fn run_inlined(kind: u32, n: usize) -> u64 {
    let run = |world: &mut World, commands: &[Command], answers: &mut Vec<Answer>| {
        commands.iter().try_for_each(|command| world.apply(command).map(|answer| answers.push(answer)))
    };
    ran(kind, n, run).unwrap_or(u64::MAX)
}

/// The same by calls.
pub fn run_by_calls(kind: u32, n: usize) -> u64 {
    let run = |world: &mut World, commands: &[Command], answers: &mut Vec<Answer>| {
        commands.iter().try_for_each(|command| apply_called(world, command).map(|answer| answers.push(answer)))
    };
    ran(kind, n, run).unwrap_or(u64::MAX)
}

/// All places are filled first, and then written over, by calls.
pub fn run_into_places(kind: u32, n: usize) -> u64 {
    let run = |world: &mut World, commands: &[Command], answers: &mut Vec<Answer>| {
        answers.resize_with(commands.len(), || Answer::Done);
        answers.iter_mut().zip(commands).try_for_each(|(answer, command)| apply_into(world, command, answer))
    };
    ran(kind, n, run).unwrap_or(u64::MAX)
}

/// A place is filled when it is its command's turn, and then written over, by calls.
pub fn run_into_next_place(kind: u32, n: usize) -> u64 {
    let run = |world: &mut World, commands: &[Command], answers: &mut Vec<Answer>| {
        commands.iter().try_for_each(|command| {
            answers.push(Answer::Done);
            answers.last_mut().map_or(Ok(()), |answer| apply_into(world, command, answer))
        })
    };
    ran(kind, n, run).unwrap_or(u64::MAX)
}
