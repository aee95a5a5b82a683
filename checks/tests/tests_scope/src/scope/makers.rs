//! Scopes that are made from items, and items that are added.
use super::prints;
use rhai_scope::Scope;
use rhai_text::ImmutableString;
use rhai_value::{Dynamic, Store};
use std::alloc::{AllocError, Global};
use std::test::Fail;

fn pairs(alloc: Global) -> Result<Vec<(ImmutableString, Dynamic)>, AllocError> {
    Ok(vec![in alloc; (ImmutableString::from_str(alloc, "a")?, Dynamic::ONE)]?)
}

fn flagged(alloc: Global) -> Result<Vec<(ImmutableString, bool, Dynamic)>, AllocError> {
    Ok(vec![in alloc; (ImmutableString::from_str(alloc, "b")?, true, Dynamic::TWO)]?)
}

/// Whether a scope was made, and prints like this after these items were added.
fn is_made(
    alloc: Global,
    made: Result<Scope, AllocError>,
    more: Vec<(ImmutableString, Dynamic)>,
    flagged: Vec<(ImmutableString, bool, Dynamic)>,
    wanted: &str,
) -> bool {
    let Ok(mut scope) = made else {
        return false;
    };
    scope.extend(more).is_ok()
        && scope.extend_flagged(flagged).is_ok()
        && prints(alloc, &scope, &Store::new(alloc), wanted)
}

#[test]
fn scopes_are_made_of_items(rt: HostRuntime) -> Result<(), Fail> {
    let alloc = rt.alloc();
    let plain = Scope::from_pairs(alloc, pairs(alloc)?);
    assert!(rt;
        is_made(
            alloc,
            plain,
            pairs(alloc)?,
            flagged(alloc)?,
            "[1] a = 1\n[2] a = 1\n[3] const b = 2\n"
        )
    );
    Ok(())
}

#[test]
fn scopes_are_made_of_flagged_items(rt: HostRuntime) -> Result<(), Fail> {
    let alloc = rt.alloc();
    let constants = Scope::from_flagged(alloc, flagged(alloc)?);
    assert!(rt;
        is_made(
            alloc,
            constants,
            Vec::new(alloc),
            Vec::new(alloc),
            "[1] const b = 2\n"
        )
    );
    Ok(())
}
