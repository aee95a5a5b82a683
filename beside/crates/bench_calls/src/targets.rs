//! Targets: their properties, writes to them, and how they are spent.
ghost use Rattle.rhai_target.specs.Target.{IsMarkedIn};

use crate::answers::Answers;
use crate::desk::Desk;
use crate::parts::{Piece, part};
use rhai_target::Target;
use rhai_value::{Dynamic, Store};
use std::alloc::{AllocError, Global};

fn say_target(answers: &mut Answers, s: &Store, target: &Target<'_>) -> Result<(), AllocError>
    requires { IsMarkedIn s.now target.now }
{
    answers.say_flag("is_ref", (&*target).is_ref())?;
    answers.say_flag("is_temp", (&*target).is_temp_value())?;
    answers.say_flag("is_shared", (&*target).is_shared())?;
    answers.say_value("source", s, (&*target).source(s))?;
    answers.say_value("as_ref", s, (&*target).as_ref(s))
}

/// Takes the value of a target, or a copy.
fn take(
    alloc: Global,
    answers: &mut Answers,
    m: &mut Store,
    target: Target<'_>,
) -> Result<(), AllocError>
    requires { IsMarkedIn m.old target }
{
    match target.take_or_clone(alloc, m) {
        Ok(value) => answers.say_kept("taken", m, value),
        Err(target) => {
            target.release(m);
            Err(AllocError)
        }
    }
}

/// Tags the value that a target refers to, if it is a reference.
fn tag(answers: &mut Answers, m: &mut Store, target: Target<'_>) -> Result<(), AllocError>
    requires { IsMarkedIn m.old target }
{
    match target.take_ref(m) {
        Some(reference) => {
            reference.set_tag(77);
            answers.say("ref", "some")
        }
        None => answers.say("ref", "none"),
    }
}

/// Makes an owned target.
fn own(
    alloc: Global,
    answers: &mut Answers,
    m: &mut Store,
    target: Target<'_>,
) -> Result<(), AllocError>
    requires { IsMarkedIn m.old target }
{
    match target.into_owned(alloc, m) {
        Ok(owned) => {
            let said = say_target(answers, m, &owned);
            owned.release(m);
            said
        }
        Err(target) => {
            target.release(m);
            Err(AllocError)
        }
    }
}

/// Writes what a target is, writes a value to it if the variant says so, and spends it.
fn with_target(
    desk: &mut Desk,
    mut target: Target<'_>,
    y: &mut Dynamic,
    way: u8,
) -> Result<(), AllocError>
    requires { IsMarkedIn desk.old.store target }
{
    let said = say_target(&mut desk.answers, &desk.store, &target);
    if way >= 4 {
        target.put(&mut desk.store, y.take());
    }
    let spent = match way & 3 {
        0 => take(desk.alloc, &mut desk.answers, &mut desk.store, target),
        1 => tag(&mut desk.answers, &mut desk.store, target),
        2 => own(desk.alloc, &mut desk.answers, &mut desk.store, target),
        _ => {
            target.release(&mut desk.store);
            Ok(())
        }
    };
    said?;
    spent
}

/// Makes a target of the first value, writes the second one to it, and spends it.
pub fn target_call(desk: &mut Desk, x: &mut Dynamic, y: &mut Dynamic) -> Result<(), AllocError> {
    let kind = desk.recipe.byte();
    let way = desk.recipe.byte() & 7;
    if kind == 0 {
        return match Target::try_from(x, &mut desk.store) {
            Ok(target) => with_target(desk, target, y, way),
            Err(error) => desk.answers.say_fault(&error),
        };
    }
    if kind == 1 {
        return with_target(desk, Target::from(x.take()), y, way);
    }
    let piece = Piece::read(&mut desk.recipe);
    match part(piece, &desk.store, x, Dynamic::TRUE) {
        Some(target) => with_target(desk, target, y, way),
        None => desk.answers.say("part", "none"),
    }
}
