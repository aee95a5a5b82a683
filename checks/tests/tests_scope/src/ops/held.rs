//! Rows that are called with other values than they were looked up for: they use the held values.
use super::holders::shared;
use super::readme::{assign, operate};
use rhai_ops::FnBuiltin;
use rhai_text::{EvalAltResult, Limits, Position, SizeKind, Token};
use rhai_value::{Dynamic, Store};
use std::alloc::Global;

const UNLIMITED: Limits = Limits { text: 0, items: 0 };

/// Whether the row of two ints returns 11 for a holder of 5 and 6.
fn is_added(alloc: Global, store: &mut Store, x: &mut Dynamic, y: &mut Dynamic) -> bool {
    if !x.is_int(store) || !y.is_int(store) {
        return false;
    }
    match FnBuiltin::Int(Token::Plus).call(alloc, store, &UNLIMITED, x, y) {
        Ok(sum) => sum.as_int(store) == Ok(11),
        Err(_) => false,
    }
}

#[test]
fn a_row_goes_by_what_is_held(rt: HostRuntime) {
    let mut store = Store::new(rt.alloc());
    let mut five = shared(Dynamic::from_int(5), &mut store);
    let mut six = Dynamic::from_int(6);
    assert!(rt; five.is_shared() && is_added(rt.alloc(), &mut store, &mut five, &mut six));
}

/// Makes another holder of the cell; unit if the allocation fails.
fn again(alloc: Global, holder: &Dynamic) -> Dynamic {
    match holder.copy(alloc) {
        Ok(copy) => copy,
        Err(_) => Dynamic::UNIT,
    }
}

/// Whether the row of an assignment of ints doubles the int of one cell, and keeps its tag.
fn is_doubled(alloc: Global, store: &mut Store, x: &mut Dynamic, y: &mut Dynamic) -> bool {
    if !x.is_int(store) || !y.is_int(store) {
        return false;
    }
    let row = FnBuiltin::IntAssign(Token::PlusAssign);
    row.call(alloc, store, &UNLIMITED, x, y).is_ok()
        && y.as_int(store) == Ok(10)
        && matches!(y.held(store), Some(held) if held.tag() == 6)
}

#[test]
fn both_may_be_holders_of_one_cell(rt: HostRuntime) {
    let mut store = Store::new(rt.alloc());
    let mut five = Dynamic::from_int(5);
    five.set_tag(6);
    let mut x = shared(five, &mut store);
    let mut y = again(rt.alloc(), &x);
    assert!(rt; is_doubled(rt.alloc(), &mut store, &mut x, &mut y));
}

/// Whether the items of an array are appended to it, and unit is left.
fn is_appended(alloc: Global, store: &mut Store, x: &mut Dynamic, y: &mut Dynamic) -> bool {
    if !x.is_array(store) || !y.is_array(store) {
        return false;
    }
    FnBuiltin::ArrayAppend
        .call(alloc, store, &UNLIMITED, x, y)
        .is_ok()
        && y.is_unit(store)
        && matches!(x.as_array_ref(store), Ok(items) if items.len() == 2)
}

/// Makes an array of one value; unit if the allocation fails.
fn array(alloc: Global) -> Dynamic {
    match vec![in alloc; Dynamic::ONE] {
        Ok(items) => Dynamic::from_array(items),
        Err(_) => Dynamic::UNIT,
    }
}

#[test]
fn an_array_may_take_its_own_items(rt: HostRuntime) {
    let mut store = Store::new(rt.alloc());
    let mut x = shared(array(rt.alloc()), &mut store);
    let mut y = again(rt.alloc(), &x);
    assert!(rt; is_appended(rt.alloc(), &mut store, &mut x, &mut y));
}

/// Whether a holder of an array's own cell is pushed into it, and unit is left.
fn is_pushed(alloc: Global, store: &mut Store, x: &mut Dynamic, y: &mut Dynamic) -> bool {
    if !x.is_array(store) {
        return false;
    }
    FnBuiltin::ArrayPush
        .call(alloc, store, &UNLIMITED, x, y)
        .is_ok()
        && y.is_unit(store)
        && matches!(x.as_array_ref(store), Ok(items) if items.len() == 2)
}

#[test]
fn an_array_may_hold_its_own_holder(rt: HostRuntime) {
    let mut store = Store::new(rt.alloc());
    let mut x = shared(array(rt.alloc()), &mut store);
    let mut y = again(rt.alloc(), &x);
    assert!(rt; is_pushed(rt.alloc(), &mut store, &mut x, &mut y));
}

/// Returns an operator's int result; `None` if it has no row.
fn sum(alloc: Global, store: &mut Store, x: &mut Dynamic, y: &mut Dynamic) -> Option<i64> {
    let answer = operate(Token::Plus, alloc, store, &UNLIMITED, x, y).ok()??;
    answer.as_int(store).ok()
}

/// Whether two ints are added, by an operator and by an assignment, and a holder has no row for
/// either.
fn are_added(alloc: Global, store: &mut Store, x: &mut Dynamic, holder: &mut Dynamic) -> bool {
    sum(alloc, store, x, &mut { Dynamic::TWO }) == Some(3)
        && sum(alloc, store, x, holder).is_none()
        && matches!(
            assign(
                Token::PlusAssign,
                alloc,
                store,
                &UNLIMITED,
                x,
                &mut { Dynamic::TWO }
            ),
            Ok(true)
        )
        && x.as_int(store) == Ok(3)
        && matches!(
            assign(Token::PlusAssign, alloc, store, &UNLIMITED, holder, x),
            Ok(false)
        )
}

#[test]
fn callers_look_rows_up(rt: HostRuntime) {
    let mut store = Store::new(rt.alloc());
    let mut holder = shared(Dynamic::ONE, &mut store);
    let mut one = Dynamic::ONE;
    assert!(rt; are_added(rt.alloc(), &mut store, &mut one, &mut holder));
}

/// Whether a third item is refused by the limit, without a position, and everything is unchanged.
fn is_too_many(alloc: Global, store: &mut Store, x: &mut Dynamic, y: &mut Dynamic) -> bool {
    let limits = Limits { text: 0, items: 1 };
    let is_refused = match assign(Token::PlusAssign, alloc, store, &limits, x, y) {
        Err(EvalAltResult::ErrorDataTooLarge(kind, at)) => kind == SizeKind::Items
            && at == Position::NONE,
        Err(_) => false,
        Ok(_) => false,
    };
    is_refused
        && y.as_int(store) == Ok(3)
        && matches!(x.as_array_ref(store), Ok(items) if items.len() == 1)
}

#[test]
fn a_limit_is_looked_at(rt: HostRuntime) {
    let mut store = Store::new(rt.alloc());
    let mut x = array(rt.alloc());
    let mut y = Dynamic::THREE;
    assert!(rt; is_too_many(rt.alloc(), &mut store, &mut x, &mut y));
    assert!(rt; FnBuiltin::ArrayPush.uses_limits() && !FnBuiltin::TextMinus.uses_limits());
}
