//! Texts, in what only a call can show.
use rhai_text::{EvalAltResult, ImmutableString, Position, quoted_char_into, quoted_text_into};
use std::alloc::{AllocError, Global};
use std::hash::{BuildHasher, BuildHasherDefault, FoldHasher};
use std::mem::size_of;

/// Whether a text has these characters in so many bytes.
fn reads(text: &ImmutableString, characters: &str, bytes: usize) -> bool {
    text.as_str() == characters && text.len() == bytes && text.is_empty() == (bytes == 0)
}

/// Whether the text of these characters, and a copy of it, has them in so many bytes.
fn is_read(alloc: Global, characters: &str, bytes: usize) -> bool {
    let Ok(text) = ImmutableString::from_str(alloc, characters) else {
        return false;
    };
    match text.copy(alloc) {
        Ok(copy) => reads(&text, characters, bytes) && reads(&copy, characters, bytes),
        Err(_) => false,
    }
}

#[test]
fn a_text_has_characters_and_bytes(rt: HostRuntime) {
    let alloc = rt.alloc();
    assert!(rt; is_read(alloc, "", 0));
    assert!(rt; is_read(alloc, "a", 1));
    assert!(rt; is_read(alloc, "é1", 3));
    assert!(rt; is_read(alloc, "€\n", 4));
    assert!(rt; is_read(alloc, "😀é", 6));
    assert!(rt; size_of::<ImmutableString>() == 8);
}

/// Whether a text has the hash of its characters.
fn is_hashed_as_its_str(alloc: Global, characters: &str) -> bool {
    let hashes = BuildHasherDefault::<FoldHasher>::new();
    match ImmutableString::from_str(alloc, characters) {
        Ok(text) => hashes.hash_one(&text) == hashes.hash_one(&characters),
        Err(_) => false,
    }
}

#[test]
fn a_text_hashes_as_its_str(rt: HostRuntime) {
    let alloc = rt.alloc();
    assert!(rt; is_hashed_as_its_str(alloc, ""));
    assert!(rt; is_hashed_as_its_str(alloc, "a"));
    assert!(rt; is_hashed_as_its_str(alloc, "é€😀"));
}

/// Whether a text is quoted like this, after existing text.
fn is_quoted(alloc: Global, characters: &str, wanted: &str) -> bool {
    let Ok(text) = ImmutableString::from_str(alloc, characters) else {
        return false;
    };
    let Ok(mut out) = String::from_str(alloc, "é") else {
        return false;
    };
    text.quoted_into(&mut out).is_ok() && out.as_str().strip_prefix('é') == Some(wanted)
}

/// Whether a character is quoted like this, and the text of it between quotation marks of its own.
fn is_quoted_char(alloc: Global, character: char, wanted: &str, text: &str) -> bool {
    let mut out = String::new(alloc);
    quoted_char_into(character, &mut out).is_ok()
        && quoted_text_into("\n", &mut out).is_ok()
        && out.as_str().strip_prefix(wanted) == Some(text)
}

/// A line contains no line feed, so texts with one are quoted here.
#[test]
fn line_feeds_are_quoted(rt: HostRuntime) {
    let alloc = rt.alloc();
    assert!(rt; is_quoted(alloc, "a\"b\n\u{1}", r#""a\"b\n\u{1}""#));
    assert!(rt; is_quoted(alloc, "\0\t\n\r\\", r#""\0\t\n\r\\""#));
    assert!(rt; is_quoted_char(alloc, '\n', r"'\n'", r#""\n""#));
}

#[test]
fn places_and_errors(rt: HostRuntime) {
    let place = Position::new(3, 14);
    assert!(rt; place.line() == 3 && place.position() == 14);
    assert!(rt; Position::NONE == Position::new(0, 0));
    assert!(rt;
        matches!(
            EvalAltResult::from(AllocError),
            EvalAltResult::ErrorMemory(_)
        )
    );
}
