//! Operators and assignments.

use super::{guarded, Desk};
use crate::departures::Departure;
use crate::dump::cell_of;
use crate::ends::{end, flat, is_range, label, set_label, End};
use crate::recipe::LookUp;
use rhai::{
    get_builtin_binary_op_fn, get_builtin_op_assignment_fn, hooks, AccessMode, Dynamic, Engine, FnBuiltin, NativeCallContext,
    Position, Token, Union, ERR,
};

const TOKENS: [Token; 31] = [
    Token::Plus,
    Token::Minus,
    Token::Multiply,
    Token::Divide,
    Token::Modulo,
    Token::PowerOf,
    Token::RightShift,
    Token::LeftShift,
    Token::Ampersand,
    Token::Pipe,
    Token::XOr,
    Token::EqualsTo,
    Token::NotEqualsTo,
    Token::GreaterThan,
    Token::GreaterThanEqualsTo,
    Token::LessThan,
    Token::LessThanEqualsTo,
    Token::ExclusiveRange,
    Token::InclusiveRange,
    Token::Equals,
    Token::PlusAssign,
    Token::MinusAssign,
    Token::MultiplyAssign,
    Token::DivideAssign,
    Token::ModuloAssign,
    Token::PowerOfAssign,
    Token::RightShiftAssign,
    Token::LeftShiftAssign,
    Token::AndAssign,
    Token::OrAssign,
    Token::XOrAssign,
];

/// The outcome of an operator or an assignment.
pub(crate) enum Operated {
    LookUpPanics,
    NoRow,
    /// Whether the row needs a context, and the result of its call; `None` if that panics.
    Row(bool, Option<Result<Dynamic, rhai::RhaiError>>),
}

/// The operator of a number.
#[must_use]
pub fn token(number: u8) -> Token {
    TOKENS[usize::from(number)]
}

impl Desk {
    /// The row of an operator or an assignment; `None` if the look-up panics.
    fn look_up(&mut self, binary: bool, token: Token, x: &Dynamic, y: &Dynamic) -> Option<Option<FnBuiltin>> {
        if self.adapt && binary && (matches!(end(x), End::Stuck(_)) || matches!(end(y), End::Stuck(_))) {
            self.depart(Departure::BorrowedLookUp);
            return Some(None);
        }
        let find = if binary { get_builtin_binary_op_fn } else { get_builtin_op_assignment_fn };
        guarded(|| find(&token, x, y))
    }

    /// The row of an assignment, looked up for the first content of the first operand or for the operand itself.
    fn look_up_assignment(&mut self, token: Token, way: LookUp, x: &Dynamic, y: &Dynamic) -> Option<Option<FnBuiltin>> {
        match way {
            LookUp::Own => self.look_up(false, token, x, y),
            LookUp::FirstContent => match x.read_lock::<Dynamic>() {
                Some(first) => self.look_up(false, token, &first, y),
                None => Some(None),
            },
            LookUp::HeldTexts => match (flat(x), flat(y)) {
                (first, second) if is_text(&first) && is_text(&second) => self.look_up(false, token, &first, &second),
                _ => Some(None),
            },
        }
    }

    fn call(
        &mut self,
        f: FnBuiltin,
        text: usize,
        items: usize,
        x: &mut Dynamic,
        y: &mut Dynamic,
    ) -> Option<Result<Dynamic, rhai::RhaiError>> {
        let mut engine = Engine::new();
        (engine.max_string, engine.max_array, engine.max_map) = (text, items, items);
        let ctx = if f.1 { Some(NativeCallContext::new(&engine)) } else { None };
        guarded(|| (f.0)(ctx, &mut [x, y]))
    }

    fn tell(&mut self, operated: Operated) {
        match operated {
            Operated::LookUpPanics => self.say("row", "PANIC"),
            Operated::NoRow => self.say("row", "none"),
            Operated::Row(wants, result) => {
                self.say("row", wants);
                match result {
                    None => self.say("value", "PANIC"),
                    Some(Ok(v)) => self.say_kept("value", v),
                    Some(Err(e)) => self.say_fault(&e),
                }
            }
        }
    }

    pub(super) fn operate(&mut self, t: u8, text: u8, items: u8, x: &mut Dynamic, y: &mut Dynamic) {
        let token = token(t);
        let by_range = if self.adapt { self.of_two_ranges(token, x, y) } else { None };
        if let Some(operated) = by_range {
            return self.tell(operated);
        }
        let operated = match self.look_up(true, token, x, y) {
            None => Operated::LookUpPanics,
            Some(None) => Operated::NoRow,
            Some(Some(f)) if self.adapt => self.operate_by_rule(f, text.into(), items.into(), x, y),
            Some(Some(f)) => Operated::Row(f.1, self.call(f, text.into(), items.into(), x, y)),
        };
        self.tell(operated);
    }

    pub(super) fn assign(&mut self, t: u8, way: LookUp, text: u8, items: u8, x: &mut Dynamic, y: &mut Dynamic) {
        let token = token(t);
        let operated = match self.look_up_assignment(token, way, x, y) {
            None => Operated::LookUpPanics,
            Some(None) => Operated::NoRow,
            Some(Some(f)) if self.adapt => Operated::Row(f.1, self.assign_by_rule(f, token, (text.into(), items.into()), x, y)),
            Some(Some(f)) => Operated::Row(f.1, self.call(f, text.into(), items.into(), x, y)),
        };
        self.tell(operated);
    }

    /// What `==` and `=` are on a range with its end and one without, by the port's rule.
    fn of_two_ranges(&mut self, token: Token, x: &Dynamic, y: &Dynamic) -> Option<Operated> {
        let both_kinds = matches!((is_range(&flat(x)), is_range(&flat(y))), (Some(a), Some(b)) if a != b);
        if !both_kinds || !matches!(token, Token::EqualsTo | Token::Equals) {
            return None;
        }
        self.depart(Departure::RangeEquality);
        Some(if token == Token::EqualsTo { Operated::Row(false, Some(Ok(Dynamic::FALSE))) } else { Operated::NoRow })
    }

    /// Calls the row of an operator, which writes nothing.
    fn operate_by_rule(&mut self, f: FnBuiltin, text: usize, items: usize, x: &mut Dynamic, y: &mut Dynamic) -> Operated {
        let mut a = self.inner(x).unwrap_or_else(|| x.clone());
        let mut b = self.inner(y).unwrap_or_else(|| y.clone());
        let result = match (x.is_shared(), y.is_shared()) {
            (true, true) => self.call(f, text, items, &mut a, &mut b),
            (true, false) => self.call(f, text, items, &mut a, y),
            (false, true) => self.call(f, text, items, x, &mut b),
            (false, false) => self.call(f, text, items, x, y),
        };
        Operated::Row(f.1, result)
    }

    /// The result of an operator on two values by the port's rules.
    pub(crate) fn operated(&mut self, token: Token, x: &mut Dynamic, y: &mut Dynamic) -> Operated {
        if let Some(operated) = self.of_two_ranges(token, x, y) {
            return operated;
        }
        match self.look_up(true, token, x, y) {
            None => Operated::LookUpPanics,
            Some(None) => Operated::NoRow,
            Some(Some(f)) => self.operate_by_rule(f, 0, 0, x, y),
        }
    }

    /// The result of an assignment by the port's rules, looked up for the first content of the first operand.
    pub(crate) fn assigned(&mut self, token: Token, first: &Dynamic, x: &mut Dynamic, y: &mut Dynamic) -> Operated {
        match self.look_up(false, token, first, y) {
            None => Operated::LookUpPanics,
            Some(None) => Operated::NoRow,
            Some(Some(f)) => Operated::Row(f.1, self.assign_by_rule(f, token, (0, 0), x, y)),
        }
    }

    fn assign_by_rule(
        &mut self,
        f: FnBuiltin,
        token: Token,
        (text, items): (usize, usize),
        x: &mut Dynamic,
        y: &mut Dynamic,
    ) -> Option<Result<Dynamic, rhai::RhaiError>> {
        let assignment = Assignment { token, was: flat(x), with: y.clone() };
        if assignment.is_of_array() && (text, items) != (0, 0) {
            self.depart(Departure::TakenOperand);
        }
        if let Some(departure) = assignment.too_large(items) {
            self.depart(departure);
            return Some(Err(ERR::ErrorDataTooLarge("Size of array/BLOB".into(), Position::NONE).into()));
        }
        let limits = if assignment.is_of_array() { (0, 0) } else { (text, items) };
        let (mut a, mut b) = (self.inner(x), self.inner(y));
        let same_cell = a.as_ref().and_then(cell_of).is_some() && a.as_ref().and_then(cell_of) == b.as_ref().and_then(cell_of);
        if same_cell && assignment.is_of_texts() {
            self.depart(Departure::OneCell);
            b = Some(flat(&assignment.with));
        }
        let is_held = x.is_shared();
        let place = a.as_mut().filter(|_| is_held).unwrap_or(x);
        let before = with_content(place, |v| label(v));
        let result = self.call_on_held(f, limits, &assignment, place, b, y);
        if assignment.keeps_label() && matches!(result, Some(Ok(_))) && before != (0, AccessMode::ReadWrite) {
            self.depart(Departure::WholeValue);
            with_content(place, |v| set_label(v, before));
        }
        result
    }

    /// Calls the row of an assignment on what is held. A holder whose content was taken is taken in its place.
    fn call_on_held(
        &mut self,
        f: FnBuiltin,
        limits: (usize, usize),
        assignment: &Assignment,
        place: &mut Dynamic,
        b: Option<Dynamic>,
        y: &mut Dynamic,
    ) -> Option<Result<Dynamic, rhai::RhaiError>> {
        let Some(mut held) = b.filter(|_| y.is_shared()) else { return self.call(f, limits.0, limits.1, place, y) };
        let is_own_unit = |v: &Dynamic| !v.is_shared() && v.is_unit();
        let was_unit = is_own_unit(&held);
        let result = self.call(f, limits.0, limits.1, place, &mut held);
        if is_own_unit(&held) && !was_unit {
            let whole = std::mem::take(y);
            if assignment.pushes() {
                push_whole(place, whole);
            }
        }
        result
    }
}

/// An assignment, on what its row was looked up for.
struct Assignment {
    token: Token,
    was: Dynamic,
    with: Dynamic,
}

impl Assignment {
    fn both(&self) -> (&Union, &Union) {
        (hooks::union(&self.was), hooks::union(&self.with))
    }

    fn is_of_texts(&self) -> bool {
        is_text(&self.was) && is_text(&flat(&self.with))
    }

    fn is_of_array(&self) -> bool {
        self.token == Token::PlusAssign && matches!(self.both(), (Union::Array(..), _))
    }

    /// Whether an item is pushed, and not an array appended.
    fn pushes(&self) -> bool {
        matches!(self.both().0, Union::Array(..)) && !matches!(self.both().1, Union::Array(..))
    }

    /// Whether the written value keeps tag and mode, where the release replaces the whole value.
    fn keeps_label(&self) -> bool {
        use Token::{DivideAssign, MinusAssign, ModuloAssign, MultiplyAssign, PlusAssign, PowerOfAssign};
        let is_arithmetic =
            matches!(self.token, PlusAssign | MinusAssign | MultiplyAssign | DivideAssign | ModuloAssign | PowerOfAssign);
        match self.both() {
            (Union::Int(..), Union::Int(..)) => !is_arithmetic,
            (Union::Char(..), _) => true,
            _ => false,
        }
    }

    /// The departure by which the new size is refused before anything is written.
    fn too_large(&self, items: usize) -> Option<Departure> {
        if self.token != Token::PlusAssign || items == 0 {
            return None;
        }
        let (size, departure) = match self.both() {
            (Union::Array(a, ..), Union::Array(b, ..)) if a.is_empty() || b.is_empty() => (0, Departure::TakenOperand),
            (Union::Array(a, ..), Union::Array(b, ..)) => (a.len() + b.len(), Departure::TakenOperand),
            (Union::Array(a, ..), _) => (a.len() + 1, Departure::TakenOperand),
            (Union::Blob(a, ..), Union::Blob(b, ..)) => (a.len() + b.len(), Departure::TakenOperand),
            (Union::Blob(a, ..), Union::Char(c, ..)) => (a.len() + c.len_utf8(), Departure::BlobCharacter),
            _ => (0, Departure::TakenOperand),
        };
        (size > items).then_some(departure)
    }
}

fn is_text(v: &Dynamic) -> bool {
    matches!(hooks::union(v), Union::Str(..))
}

/// Does something with the content of a holder's cell, or with the value itself.
fn with_content<R>(v: &mut Dynamic, f: impl FnOnce(&mut Dynamic) -> R) -> R {
    if !v.is_shared() {
        return f(v);
    }
    let Union::Shared(cell, ..) = hooks::union(v) else { unreachable!() };
    let answer = f(&mut cell.borrow_mut());
    answer
}

/// Puts a holder itself in the place of the last item, which is what it held.
fn push_whole(place: &mut Dynamic, whole: Dynamic) {
    let Some(mut items) = place.write_lock::<rhai::Array>() else { return };
    let before = label(&whole);
    items.pop();
    items.push(whole);
    if let Some(last) = items.last_mut() {
        set_label(last, before);
    }
}
