//! Chains of holders, and what they end at.

use crate::dump::cell_of;
use rhai::{hooks, AccessMode, Dynamic, ExclusiveRange, FnPtr, ImmutableString, InclusiveRange, Union, Variant};

/// Where the chain of a value ends.
pub enum End {
    /// The value is no holder.
    Own,
    /// At a content: the innermost holder.
    Held(Dynamic),
    /// The holder at which it is stuck, since its cell is borrowed.
    Stuck(Dynamic),
}

/// The same holder again.
#[must_use]
pub fn again(v: &Dynamic) -> Dynamic {
    let Union::Shared(cell, ..) = hooks::union(v) else { unreachable!() };
    cell.clone().into()
}

#[must_use]
pub fn end(v: &Dynamic) -> End {
    let Union::Shared(cell, ..) = hooks::union(v) else { return End::Own };
    match cell.try_borrow() {
        Err(_) => End::Stuck(v.clone()),
        Ok(content) => match end(&content) {
            End::Own => End::Held(again(v)),
            other => other,
        },
    }
}

/// Whether the first cell holds a holder.
#[must_use]
pub fn is_chain(v: &Dynamic) -> bool {
    match hooks::union(v) {
        Union::Shared(cell, ..) => cell.try_borrow().is_ok_and(|content| content.is_shared()),
        _ => false,
    }
}

/// A copy of the held value; for a stuck chain of the holder.
#[must_use]
pub fn flat(v: &Dynamic) -> Dynamic {
    match end(v) {
        End::Own => v.clone(),
        End::Held(holder) => holder.flatten_clone(),
        End::Stuck(holder) => holder,
    }
}

/// Whether the last holder of a cell is here.
#[must_use]
pub fn is_last(v: &Dynamic) -> bool {
    matches!(hooks::union(v), Union::Shared(cell, ..) if std::rc::Rc::strong_count(cell) == 1)
}

/// The values right inside a value, cells left out.
pub fn parts(v: &Dynamic) -> Vec<&Dynamic> {
    match hooks::union(v) {
        Union::Array(a, ..) => a.iter().collect(),
        Union::Map(m, ..) => m.values().collect(),
        Union::FnPtr(f, ..) => f.curry().iter().collect(),
        _ => Vec::new(),
    }
}

/// Whether a walk reaches a cell twice, in a loop or not.
pub fn meets_twice(v: &Dynamic, met: &mut Vec<*const ()>) -> bool {
    let Union::Shared(cell, ..) = hooks::union(v) else {
        return parts(v).into_iter().any(|v| meets_twice(v, met));
    };
    let place = cell_of(v).expect("a holder");
    if met.contains(&place) {
        return true;
    }
    met.push(place);
    cell.try_borrow().is_ok_and(|content| meets_twice(&content, met))
}

/// Whether a value contains a host number, also in cells.
pub fn has_host(v: &Dynamic, path: &mut Vec<*const ()>) -> bool {
    if v.is_variant() {
        return true;
    }
    let Union::Shared(cell, ..) = hooks::union(v) else {
        return parts(v).into_iter().any(|v| has_host(v, path));
    };
    let place = cell_of(v).expect("a holder");
    if path.contains(&place) {
        return false;
    }
    path.push(place);
    cell.try_borrow().is_ok_and(|content| has_host(&content, path))
}

/// A copy of the value that also keeps the modes which a clone loses.
#[must_use]
pub fn moved(v: &Dynamic) -> Dynamic {
    let mut new = match hooks::union(v) {
        Union::Array(a, ..) => Dynamic::from_array(a.iter().map(moved).collect()),
        Union::Map(m, ..) => Dynamic::from_map(m.iter().map(|(k, v)| (k.clone(), moved(v))).collect()),
        Union::FnPtr(f, ..) => FnPtr::new(ImmutableString::from(f.fn_name()), f.curry().iter().map(moved).collect()).into(),
        _ => v.clone(),
    };
    new.set_tag(v.tag());
    hooks::set_own_mode(&mut new, hooks::access_mode(v));
    new
}

/// What a value is as one of the type, the value left as it is.
pub fn cast_here<T: Variant + Clone>(v: &Dynamic) -> Option<Dynamic> {
    moved(v).try_cast::<T>().map(Dynamic::from)
}

/// Whether a range has its end, for a range that is no holder.
#[must_use]
pub fn is_range(v: &Dynamic) -> Option<bool> {
    if v.is_shared() {
        None
    } else if hooks::downcast_ref::<ExclusiveRange>(v).is_some() {
        Some(false)
    } else {
        hooks::downcast_ref::<InclusiveRange>(v).map(|_| true)
    }
}

/// Tag and own mode.
#[must_use]
pub fn label(v: &Dynamic) -> (i32, AccessMode) {
    (v.tag(), hooks::access_mode(v))
}

/// Sets tag and own mode.
pub fn set_label(v: &mut Dynamic, (tag, mode): (i32, AccessMode)) {
    v.set_tag(tag);
    hooks::set_own_mode(v, mode);
}
