//! Printed text and hash bytes that only a call can show.
use crate::values::{chain, ring, shared, text_of};
use rhai_show::{Shown, debug_text, display_text};
use rhai_value::{Dynamic, Store};
use std::alloc::Global;
use std::test::Fail;

/// Whether `{}` formats a value like this.
fn displays(alloc: Global, value: &Dynamic, store: &Store, wanted: &str) -> bool {
    match display_text(alloc, value, store) {
        Ok(text) => text.as_str() == wanted,
        Err(_) => false,
    }
}

/// Whether `{:?}` formats a value like this.
fn debugs(alloc: Global, value: &Dynamic, store: &Store, wanted: &str) -> bool {
    match debug_text(alloc, value, store) {
        Ok(text) => text.as_str() == wanted,
        Err(_) => false,
    }
}

/// A line contains no line feed, so a text with one is printed here.
#[test]
fn a_line_feed_is_quoted(rt: HostRuntime) {
    let alloc = rt.alloc();
    let store = Store::new(alloc);
    let text = text_of(alloc, "a\"b\n\u{1}");
    assert!(rt; displays(alloc, &text, &store, "a\"b\n\u{1}"));
    assert!(rt; debugs(alloc, &text, &store, r#""a\"b\n\u{1}""#));
    let character = Dynamic::from_char('\n');
    assert!(rt; debugs(alloc, &character, &store, r"'\n'"));
}

#[test]
fn a_foreign_holder_prints_as_shared(rt: HostRuntime) {
    let alloc = rt.alloc();
    let mut store = Store::new(alloc);
    let holder = shared(Dynamic::ONE, &mut store);
    let other = Store::new(alloc);
    assert!(rt; displays(alloc, &holder, &store, "1 (shared)"));
    assert!(rt; displays(alloc, &holder, &other, "<shared>"));
    assert!(rt; debugs(alloc, &holder, &other, "<shared>"));
}

/// Whether values can be formatted in the middle of a text.
fn is_shown(alloc: Global, value: &Dynamic, store: &Store, text: Shown) -> bool {
    let (Ok(display), Ok(debug)) = (
        Shown::display(alloc, value, store),
        Shown::debug(alloc, value, store),
    ) else {
        return false;
    };
    match format!(in alloc; "{display} {debug} {text}") {
        Ok(text) => text.as_str() == "a (shared) \"a\" (shared) at hand",
        Err(_) => false,
    }
}

#[test]
fn values_are_shown_within_texts(rt: HostRuntime) -> Result<(), Fail> {
    let text = Shown::from_text(String::from_str(rt.alloc(), "at hand")?);
    let mut store = Store::new(rt.alloc());
    let holder = shared(text_of(rt.alloc(), "a"), &mut store);
    assert!(rt; is_shown(rt.alloc(), &holder, &store, text));
    Ok(())
}

/// Whether the printed value has this many bytes.
fn has_length(alloc: Global, value: &Dynamic, store: &Store, wanted: usize) -> bool {
    match display_text(alloc, value, store) {
        Ok(text) => text.len() == wanted,
        Err(_) => false,
    }
}

/// The 7 at the end, and " (shared)" once for each holder.
#[test]
fn a_long_chain_prints_each_holder(rt: HostRuntime) {
    for (length, wanted) in [(100, 901), (1000, 9001)] {
        let mut store = Store::new(rt.alloc());
        let value = chain(&mut store, length);
        assert!(rt; has_length(rt.alloc(), &value, &store, wanted));
    }
}

/// "<shared>" where the ring is closed, and " (shared)" once for each holder.
#[test]
fn a_ring_prints_each_holder(rt: HostRuntime) {
    for (length, wanted) in [(1, 17), (2, 26), (1000, 9008)] {
        let mut store = Store::new(rt.alloc());
        let holder = ring(rt.alloc(), &mut store, length);
        assert!(rt; has_length(rt.alloc(), &holder, &store, wanted));
    }
}
