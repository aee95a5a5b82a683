//! Positions in lists, and parts of values that are written back.
ghost use Rattle.std.specs.Prelude.{IfSome};
ghost use Rattle.rhai_target.specs.Target.{HasPart, IsMarkedIn};

use crate::desk::Desk;
use crate::recipe::Recipe;
use rhai_target::{Target, calc_index, calc_offset_len};
use rhai_text::Position;
use rhai_value::{Blob, Dynamic, Store};
use std::alloc::AllocError;

pub fn offsets(desk: &mut Desk) -> Result<(), AllocError> {
    let length = desk.recipe.size();
    let start = desk.recipe.int();
    let len = desk.recipe.int();
    let from_end = desk.recipe.byte() == 1;
    let (first, count) = calc_offset_len(length, start, len);
    desk.answers.say_size("offset", first)?;
    desk.answers.say_size("count", count)?;
    match calc_index(length, start, from_end) {
        Some(place) => desk.answers.say_size("index", place),
        None => desk.answers.say("index", "none"),
    }
}

/// A part of a value, given by two numbers.
#[derive(Clone, Copy)]
pub struct Piece {
    kind: u8,
    first: i64,
    second: usize,
    exclusive: bool,
}

impl Piece {
    pub fn read(recipe: &mut Recipe) -> Piece {
        Piece {
            kind: recipe.byte(),
            first: recipe.int(),
            second: recipe.size(),
            exclusive: recipe.byte() == 1,
        }
    }
}

fn bit<'x>(piece: Piece, s: &Store, source: &'x mut Dynamic, value: Dynamic) -> Option<Target<'x>>
    ensures has { IfSome result (λ t. HasPart s.now t) }
    ensures marked { IfSome result (λ t. IsMarkedIn s.now t) }
{
    let bit = (piece.first & 0xff) as u8;
    if !source.is_int(s) || bit >= 64 {
        return None;
    }
    Some(Target::Bit { source, value, bit })
}

fn field<'x>(piece: Piece, s: &Store, source: &'x mut Dynamic, value: Dynamic) -> Option<Target<'x>>
    ensures has { IfSome result (λ t. HasPart s.now t) }
    ensures marked { IfSome result (λ t. IsMarkedIn s.now t) }
{
    let mask = piece.first;
    let shift = (piece.second & 0xff) as u8;
    if !source.is_int(s) || shift >= 64 {
        return None;
    }
    Some(Target::BitField {
        source,
        value,
        mask,
        shift,
    })
}

fn byte<'x>(piece: Piece, s: &Store, source: &'x mut Dynamic, value: Dynamic) -> Option<Target<'x>>
    ensures has { IfSome result (λ t. HasPart s.now t) }
    ensures marked { IfSome result (λ t. IsMarkedIn s.now t) }
{
    let index = piece.first.cast_unsigned() as usize;
    match source.held_part::<Blob>(s) {
        Some(bytes) if index < bytes.len() => {}
        Some(_) | None => return None,
    }
    Some(Target::BlobByte {
        source,
        value,
        index,
    })
}

fn characters<'x>(
    piece: Piece,
    s: &Store,
    source: &'x mut Dynamic,
    value: Dynamic,
) -> Option<Target<'x>>
    ensures has { IfSome result (λ t. HasPart s.now t) }
    ensures marked { IfSome result (λ t. IsMarkedIn s.now t) }
{
    let start = piece.first.cast_unsigned() as usize;
    if !source.is_string(s) {
        return None;
    }
    if piece.kind == 3 {
        return Some(Target::StringChar {
            source,
            value,
            index: start,
        });
    }
    Some(Target::StringSlice {
        source,
        value,
        start,
        end: piece.second,
        exclusive: piece.exclusive,
    })
}

/// Borrows the part of a value, if the value has it.
pub fn part<'x>(
    piece: Piece,
    s: &Store,
    source: &'x mut Dynamic,
    value: Dynamic,
) -> Option<Target<'x>>
    ensures has { IfSome result (λ t. HasPart s.now t) }
    ensures marked { IfSome result (λ t. IsMarkedIn s.now t) }
{
    match piece.kind {
        0 => bit(piece, s, source, value),
        1 => field(piece, s, source, value),
        2 => byte(piece, s, source, value),
        _ => characters(piece, s, source, value),
    }
}

/// Writes the second value back to a part of the first.
pub fn write_back(desk: &mut Desk, x: &mut Dynamic, y: &mut Dynamic) -> Result<(), AllocError> {
    let piece = Piece::read(&mut desk.recipe);
    let Some(mut target) = part(piece, &desk.store, x, y.take()) else {
        return desk.answers.say("part", "none");
    };
    let done = target.propagate_changed_value(desk.alloc, &mut desk.store, Position::new(3, 4));
    target.release(&mut desk.store);
    match done {
        Ok(()) => desk.answers.say("part", "written"),
        Err(error) => desk.answers.say_fault(&error),
    }
}
