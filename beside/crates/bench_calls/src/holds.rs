//! Calls on the held value: borrowed, marked, and overwritten if it is an int.

use crate::desk::Desk;
use rhai_value::Dynamic;
use rhai_value::laws::marks_stay;
use std::alloc::AllocError;

/// Marks the cell of the held value, writes what is visible meanwhile, and writes the second value
/// to the cell if requested.
fn marked(desk: &mut Desk, x: &Dynamic, y: &mut Dynamic, writes: bool) -> Result<(), AllocError> {
    marks_stay();
    let Some(token) = desk.store.mark_held(x) else {
        return desk.answers.say("marked", "none");
    };
    let said = desk.answers.say_value("marked", &desk.store, x);
    if writes {
        *desk.store.through_mut(&token) = y.take();
    }
    desk.store.release(token);
    said
}

/// Reads the held value, or changes it, in one of the ways.
pub fn hold_call(desk: &mut Desk, x: &mut Dynamic, y: &mut Dynamic) -> Result<(), AllocError> {
    let way = desk.recipe.byte();
    let int = desk.recipe.int();
    match way {
        0 => match x.held(&desk.store) {
            Some(held) => desk.answers.say_value("held", &desk.store, held),
            None => desk.answers.say("held", "none"),
        },
        1 => marked(desk, x, y, false),
        2 => marked(desk, x, y, true),
        _ => {
            let is_int = x.set_int(&mut desk.store, int);
            desk.answers.say_flag("is_int", is_int)
        }
    }
}
