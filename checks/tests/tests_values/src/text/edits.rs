//! Worked edits of texts, each through its call.
use rhai_text::ImmutableString;
use std::alloc::{AllocError, Global};
use std::test::Fail;

/// Whether this text was made.
fn is_made(made: Result<ImmutableString, AllocError>, wanted: &str) -> bool {
    match made {
        Ok(text) => text.as_str() == wanted,
        Err(_) => false,
    }
}

fn text(alloc: Global, characters: &str) -> Result<ImmutableString, AllocError> {
    ImmutableString::from_str(alloc, characters)
}

#[test]
fn occurrences_are_dropped_from_left_to_right(rt: HostRuntime) -> Result<(), Fail> {
    let alloc = rt.alloc();
    let three = text(alloc, "aaa")?;
    let hello = text(alloc, "hello")?;
    assert!(rt; is_made(three.minus(alloc, "aa"), "a"));
    assert!(rt; is_made(three.minus(alloc, ""), "aaa"));
    assert!(rt; is_made(hello.minus_char(alloc, 'l'), "heo"));
    assert!(rt; is_made(hello.concat(alloc, "é"), "helloé"));
    assert!(rt; is_made(hello.concat(alloc, ""), "hello"));
    Ok(())
}

#[test]
fn characters_and_slices_are_replaced(rt: HostRuntime) -> Result<(), Fail> {
    let alloc = rt.alloc();
    let hello = text(alloc, "hello")?;
    let accented = text(alloc, "é1")?;
    let nothing = text(alloc, "")?;
    assert!(rt; is_made(accented.with_char(alloc, 1, 'x'), "éx"));
    assert!(rt; is_made(hello.with_char(alloc, 9, 'x'), "hello"));
    assert!(rt; is_made(hello.with_slice(alloc, 1, 3, true, "42"), "h42lo"));
    assert!(rt; is_made(hello.with_slice(alloc, 3, 1, true, ""), "helello"));
    assert!(rt; is_made(nothing.with_slice(alloc, 0, 0, false, "x"), "x"));
    Ok(())
}

/// A text of ASCII and one that isn't, each too long to be stored inline.
const PLAIN: &str = "0123456789abcdefghijklmnopqrstuvwxyz";

const MIXED: &str = "0123456789abcdefghijklmnopqrstuvwxyzé";

#[test]
fn characters_have_places(rt: HostRuntime) -> Result<(), Fail> {
    let alloc = rt.alloc();
    let short = text(alloc, "é1")?;
    let plain = text(alloc, PLAIN)?;
    let mixed = text(alloc, MIXED)?;
    assert_eq!(rt; short.char_count(), 2);
    assert_eq!(rt; plain.char_count(), 36);
    assert_eq!(rt; mixed.char_count(), 37);
    assert!(rt; short.char_at(0) == Some('é') && short.char_at(2).is_none());
    assert!(rt; plain.char_at(35) == Some('z') && plain.char_at(36).is_none());
    assert!(rt; mixed.char_at(36) == Some('é') && mixed.char_at(37).is_none());
    assert!(rt;
        is_made(
            plain.with_char(alloc, 35, 'é'),
            "0123456789abcdefghijklmnopqrstuvwxyé"
        )
    );
    assert!(rt; is_made(plain.slice(alloc, 34, 99, true), "yz"));
    assert!(rt; is_made(mixed.slice(alloc, 35, 36, false), "zé"));
    Ok(())
}

/// What is left of a text to which another is appended, and of the copy of it that shared its
/// bytes.
fn grown(
    alloc: Global,
    mut grows: ImmutableString,
    more: &str,
) -> Result<(ImmutableString, ImmutableString), AllocError> {
    let copy = grows.copy(alloc)?;
    grows.push_str(alloc, more)?;
    grows.push_str(alloc, more)?;
    Ok((grows, copy))
}

#[test]
fn texts_grow_and_their_copies_stay(rt: HostRuntime) -> Result<(), Fail> {
    let alloc = rt.alloc();
    let (short, kept) = grown(alloc, text(alloc, "ab")?, "cd")?;
    assert!(rt; short.as_str() == "abcdcd" && kept.as_str() == "ab");
    let (long, kept) = grown(alloc, short, "0123456789é")?;
    assert!(rt; long.as_str() == "abcdcd0123456789é0123456789é" && kept.as_str() == "abcdcd");
    let (longer, kept) = grown(alloc, long, "!")?;
    assert!(rt; longer.as_str() == "abcdcd0123456789é0123456789é!!" && kept.char_count() == 28);
    let (accented, _) = grown(alloc, text(alloc, PLAIN)?, "é")?;
    assert!(rt; accented.char_count() == 38 && accented.char_at(37) == Some('é'));
    Ok(())
}
