//! Worked write-backs, each with the target of a part, and worked positions in lists.
use super::parts::propagated;
use super::*;
use rhai_target::{calc_index, calc_offset_len};
use rhai_value::INT;

/// The characters that a slice selects.
#[derive(Clone, Copy)]
struct Slice {
    start: usize,
    end: usize,
    exclusive: bool,
}

/// Writes a bit of an int back.
fn bit_written(alloc: Global, source: INT, value: bool, bit: u8) -> Option<INT> {
    let mut store = Store::new(alloc);
    let mut source = Dynamic::from_int(source);
    if !source.is_int(&store) || bit > 63 {
        return None;
    }
    let target = Target::Bit {
        source: &mut source,
        value: Dynamic::from_bool(value),
        bit,
    };
    propagated(target, alloc, &mut store).ok()?;
    source.as_int(&store).ok()
}

#[test]
fn a_bit_of_each_place_is_written_back(rt: HostRuntime) {
    let alloc = rt.alloc();
    assert_eq!(rt; bit_written(alloc, 0, true, 0), Some(1));
    assert_eq!(rt; bit_written(alloc, 0, true, 63), Some(INT::MIN));
    assert_eq!(rt; bit_written(alloc, -1, false, 63), Some(INT::MAX));
    assert_eq!(rt; bit_written(alloc, 5, true, 2), Some(5));
}

/// Writes a slice of a text back.
fn write_slice(
    alloc: Global,
    store: &mut Store,
    source: &mut Dynamic,
    value: Dynamic,
    slice: Slice,
) -> bool {
    if !source.is_string(store) {
        return false;
    }
    let target = Target::StringSlice {
        source,
        value,
        start: slice.start,
        end: slice.end,
        exclusive: slice.exclusive,
    };
    propagated(target, alloc, store).is_ok()
}

/// Whether a text becomes another one when a slice of it is written.
fn becomes(alloc: Global, text: &str, slice: Slice, value: Dynamic, wanted: &str) -> bool {
    let mut store = Store::new(alloc);
    let Ok(mut source) = Dynamic::from_text(alloc, text) else {
        return false;
    };
    write_slice(alloc, &mut store, &mut source, value, slice) && holds_text(&source, &store, wanted)
}

/// Whether a text is held.
fn holds_text(value: &Dynamic, store: &Store, wanted: &str) -> bool {
    match value.as_immutable_string_ref(store) {
        Ok(text) => text.as_str() == wanted,
        Err(_) => false,
    }
}

/// Makes a slice from one position to before another.
fn between(start: usize, end: usize) -> Slice {
    Slice {
        start,
        end,
        exclusive: true,
    }
}

#[test]
fn slices_are_written_back(rt: HostRuntime) -> Result<(), Fail> {
    let alloc = rt.alloc();
    let nothing = Dynamic::from_text(alloc, "")?;
    let first = Slice {
        start: 0,
        end: 0,
        exclusive: false,
    };
    assert!(rt;
        becomes(
            alloc,
            "hello",
            between(1, 3),
            Dynamic::from_int(42),
            "h42lo"
        )
    );
    assert!(rt; becomes(alloc, "hello", between(3, 1), nothing, "helello"));
    assert!(rt; becomes(alloc, "", first, Dynamic::from_char('x'), "x"));
    Ok(())
}

/// The cell that holds the text is marked while its holder is printed.
#[test]
fn a_slice_of_a_shared_text_is_written_with_the_cell_closed(rt: HostRuntime) -> Result<(), Fail> {
    let alloc = rt.alloc();
    let mut store = Store::new(alloc);
    let mut source = shared(Dynamic::from_text(alloc, "ab")?, &mut store);
    let again = source.copy(alloc)?;
    assert!(rt; write_slice(alloc, &mut store, &mut source, again, between(0, 1)));
    assert!(rt; holds_text(&source, &store, "<shared>b"));
    Ok(())
}

#[test]
fn places_in_lists_are_worked_out(rt: HostRuntime) {
    assert_eq!(rt; calc_offset_len(5, -2, 10), (3, 2));
    assert_eq!(rt; calc_offset_len(0, -1, 4), (0, 0));
    assert_eq!(rt; calc_offset_len(5, INT::MIN, INT::MAX), (0, 5));
    assert_eq!(rt; calc_offset_len(5, 5, 1), (5, 0));
    assert_eq!(rt; calc_index(5, -5, true), Some(0));
    assert_eq!(rt; calc_index(5, -6, true), None);
    assert_eq!(rt; calc_index(5, 5, true), None);
    assert_eq!(rt; calc_index(0, 0, true), None);
    assert_eq!(rt; calc_index(5, -1, false), None);
}
