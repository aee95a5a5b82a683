//! Calls succeed if allocations do; and their results for worked values.
use super::readme::push_held;
use rhai_cast::DynamicCast;
use rhai_packs::{arrays, bits, blobs, chars, ints, maps, ranges, texts};
use rhai_show::display_text;
use rhai_text::{EvalAltResult, ImmutableString, Limits};
use rhai_value::{Array, Dynamic, INT, InclusiveRange, Map, Store};
use std::alloc::{AllocError, Global};

const LIMITS: Limits = Limits { text: 8, items: 4 };

/// Whether a call is refused for the type of a value, with these names of the expected and the
/// actual type.
fn is_mismatch(done: Result<(), EvalAltResult>, wanted: &str, found: &str) -> bool {
    match done {
        Err(EvalAltResult::ErrorMismatchDataType(w, f, _)) => {
            w.as_str() == wanted && f.as_str() == found
        }
        _ => false,
    }
}

/// Makes an array of these ints.
fn array_of(alloc: Global, numbers: &[INT]) -> Result<Array, AllocError> {
    let mut items = Vec::new(alloc);
    for number in numbers {
        items.push(Dynamic::from_int(*number))?;
    }
    Ok(items)
}

/// Whether these items print like this.
fn prints(alloc: Global, items: Array, wanted: &str) -> Result<bool, AllocError> {
    let store = Store::new(alloc);
    let text = display_text(alloc, &Dynamic::from_array(items), &store)?;
    Ok(text.as_str() == wanted)
}

fn arrays_change(alloc: Global) -> Result<bool, EvalAltResult> {
    let mut items = array_of(alloc, &[1, 2, 3])?;
    let set = arrays::set(&mut items, -1, Dynamic::from_int(9))
        && !arrays::set(&mut items, 3, Dynamic::UNIT);
    arrays::insert(&mut items, &LIMITS, -1, Dynamic::from_int(7))?;
    let full = arrays::push(&mut items, &LIMITS, Dynamic::UNIT).is_err();
    let gone = arrays::remove(&mut items, 0).is_some() && arrays::remove(&mut items, -4).is_none();
    arrays::pad(alloc, &mut items, &LIMITS, 4, &Dynamic::TRUE)?;
    arrays::chop(&mut items, 3);
    arrays::reverse(&mut items);
    let rest = arrays::split(&mut items, -1)?;
    Ok(set && full && gone && prints(alloc, items, "[true, 9]")? && prints(alloc, rest, "[7]")?)
}

#[test]
fn arrays_change_as_scripts_see_it(rt: HostRuntime) {
    assert!(rt; matches!(arrays_change(rt.alloc()), Ok(true)));
}

fn arrays_are_spliced(alloc: Global) -> Result<bool, EvalAltResult> {
    let mut items = array_of(alloc, &[1, 2, 3])?;
    arrays::splice(&mut items, &LIMITS, -2, 1, array_of(alloc, &[8, 9])?)?;
    let full = arrays::splice(&mut items, &LIMITS, 4, 0, array_of(alloc, &[0])?).is_err();
    Ok(full && prints(alloc, items, "[1, 8, 9, 3]")?)
}

#[test]
fn items_are_put_in_the_place_of_others(rt: HostRuntime) {
    assert!(rt; matches!(arrays_are_spliced(rt.alloc()), Ok(true)));
}

fn items_are_found(alloc: Global) -> Result<bool, EvalAltResult> {
    let store = Store::new(alloc);
    let items = array_of(alloc, &[4, 5, 4])?;
    let four = Dynamic::from_int(4);
    let first = arrays::index_of(alloc, &items, &store, &four)? == Some(0);
    Ok(first && !arrays::contains(alloc, &items, &store, &Dynamic::UNIT)?)
}

#[test]
fn items_are_found_by_value(rt: HostRuntime) {
    assert!(rt; matches!(items_are_found(rt.alloc()), Ok(true)));
}

fn repeats_go(alloc: Global) -> Result<bool, EvalAltResult> {
    let store = Store::new(alloc);
    let mut items = array_of(alloc, &[1, 1, 2, 1, 1])?;
    let mut tagged = Dynamic::ONE;
    tagged.set_tag(5);
    let set = arrays::set(&mut items, 1, tagged);
    arrays::dedup(alloc, &mut items, &store)?;
    Ok(set && prints(alloc, items, "[1, 2, 1]")?)
}

#[test]
fn items_that_repeat_the_one_before_go(rt: HostRuntime) {
    assert!(rt; matches!(repeats_go(rt.alloc()), Ok(true)));
}

/// Makes an array of these texts.
fn texts_of(alloc: Global, texts: &[&str]) -> Result<Array, AllocError> {
    let mut items = Vec::new(alloc);
    for text in texts {
        items.push(Dynamic::from_text(alloc, text)?)?;
    }
    Ok(items)
}

fn arrays_are_sorted(alloc: Global) -> Result<bool, EvalAltResult> {
    let store = Store::new(alloc);
    let mut ints = array_of(alloc, &[3, -1, 2])?;
    arrays::sort(&mut ints, &store)?;
    let mut mixed = array_of(alloc, &[1, 2])?;
    let set = arrays::set(&mut mixed, 1, Dynamic::TRUE);
    let named = is_mismatch(arrays::sort(&mut mixed, &store), "i64", "bool");
    Ok(set && named && prints(alloc, ints, "[-1, 2, 3]")?)
}

fn texts_are_sorted(alloc: Global) -> Result<bool, EvalAltResult> {
    let store = Store::new(alloc);
    let mut texts = texts_of(alloc, &["b", "ab", "a"])?;
    arrays::sort(&mut texts, &store)?;
    Ok(prints(alloc, texts, "[\"a\", \"ab\", \"b\"]")?)
}

#[test]
fn items_are_put_in_order(rt: HostRuntime) {
    assert!(rt; matches!(arrays_are_sorted(rt.alloc()), Ok(true)));
    assert!(rt; matches!(texts_are_sorted(rt.alloc()), Ok(true)));
}

fn an_array_is_pushed_to(alloc: Global) -> Result<bool, EvalAltResult> {
    let mut store = Store::new(alloc);
    let mut array = Dynamic::from_array(array_of(alloc, &[1])?);
    let mut number = Dynamic::ONE;
    push_held(&mut array, &mut store, &LIMITS, Dynamic::ONE)?;
    let refused = is_mismatch(
        push_held(&mut number, &mut store, &LIMITS, Dynamic::ONE),
        "array",
        "i64",
    );
    Ok(refused && display_text(alloc, &array, &store)?.as_str() == "[1, 1]")
}

#[test]
fn what_is_no_array_is_named(rt: HostRuntime) {
    assert!(rt; matches!(an_array_is_pushed_to(rt.alloc()), Ok(true)));
}

fn maps_mix(alloc: Global) -> Result<bool, EvalAltResult> {
    let mut map = Map::new(alloc);
    let mut other = Map::new(alloc);
    maps::set(&mut map, "b", Dynamic::ONE)?;
    maps::set(&mut other, "a", Dynamic::TWO)?;
    maps::set(&mut other, "b", Dynamic::TWO)?;
    maps::fill_with(&mut map, other)?;
    let keys = prints(alloc, maps::keys(alloc, &map)?, "[\"a\", \"b\"]")?;
    Ok(keys && prints(alloc, maps::values(alloc, &map)?, "[2, 1]")?)
}

#[test]
fn maps_are_filled(rt: HostRuntime) {
    assert!(rt; matches!(maps_mix(rt.alloc()), Ok(true)));
}

fn texts_change(alloc: Global) -> Result<bool, EvalAltResult> {
    let mut text = ImmutableString::from_str(alloc, " héé ")?;
    texts::trim(alloc, &mut text)?;
    texts::replace(alloc, &LIMITS, &mut text, "é", "ab")?;
    let upper = texts::to_upper(alloc, &LIMITS, &text)?.as_str() == "HABAB";
    let found = texts::index_of(&text, "b") == Some(2) && texts::ends_with(&text, "bab");
    let part = texts::sub_string(alloc, &text, -2, 9)?.as_str() == "ab";
    let full = texts::replace(alloc, &LIMITS, &mut text, "a", "123").is_err();
    Ok(upper && found && part && full && texts::len(&text) == 5)
}

#[test]
fn texts_change_by_characters(rt: HostRuntime) {
    assert!(rt; matches!(texts_change(rt.alloc()), Ok(true)));
}

fn texts_are_split(alloc: Global) -> Result<bool, EvalAltResult> {
    let text = ImmutableString::from_str(alloc, "a,é,")?;
    let parts = texts::split(alloc, &text, ",")?;
    let each = texts::split(alloc, &text, "")?;
    let same = texts::split_char(alloc, &text, ',')?;
    let two = texts::split_at(alloc, &text, -2)?;
    Ok(
        prints(alloc, parts, "[\"a\", \"é\", \"\"]")?
            && prints(alloc, each, "[\"\", \"a\", \",\", \"é\", \",\", \"\"]")?
            && prints(alloc, same, "[\"a\", \"é\", \"\"]")?
            && prints(alloc, two, "[\"a,\", \"é,\"]")?,
    )
}

#[test]
fn texts_are_split_at_separators(rt: HostRuntime) {
    assert!(rt; matches!(texts_are_split(rt.alloc()), Ok(true)));
}

fn texts_are_split_up_to(alloc: Global) -> Result<bool, EvalAltResult> {
    let text = ImmutableString::from_str(alloc, "a,é,b")?;
    let front = |parts| texts::split_at_most(alloc, &text, ",", parts);
    let back = |parts| texts::split_rev_at_most(alloc, &text, ",", parts);
    Ok(
        prints(alloc, front(2)?, "[\"a\", \"é,b\"]")?
            && prints(alloc, front(3)?, "[\"a\", \"é\", \"b\"]")?
            && prints(alloc, front(9)?, "[\"a\", \"é\", \"b\"]")?
            && prints(alloc, front(1)?, "[\"a,é,b\"]")?
            && prints(alloc, front(-2)?, "[\"a,é,b\"]")?
            && prints(alloc, back(2)?, "[\"b\", \"a,é\"]")?
            && prints(alloc, back(0)?, "[\"a,é,b\"]")?
            && prints(
                alloc,
                texts::split_rev(alloc, &text, ",")?,
                "[\"b\", \"é\", \"a\"]",
            )?,
    )
}

#[test]
fn texts_are_split_into_some_parts(rt: HostRuntime) {
    assert!(rt; matches!(texts_are_split_up_to(rt.alloc()), Ok(true)));
}

fn texts_are_split_everywhere(alloc: Global) -> Result<bool, EvalAltResult> {
    let text = ImmutableString::from_str(alloc, "aéb")?;
    let front = |parts| texts::split_at_most(alloc, &text, "", parts);
    let back = |parts| texts::split_rev_at_most(alloc, &text, "", parts);
    let run = ImmutableString::from_str(alloc, "aaa")?;
    let words = ImmutableString::from_str(alloc, "  a é\tb\n")?;
    let none = ImmutableString::from_str(alloc, " ")?;
    Ok(
        prints(alloc, front(2)?, "[\"\", \"aéb\"]")?
            && prints(alloc, front(4)?, "[\"\", \"a\", \"é\", \"b\"]")?
            && prints(alloc, front(6)?, "[\"\", \"a\", \"é\", \"b\", \"\"]")?
            && prints(alloc, back(3)?, "[\"\", \"b\", \"aé\"]")?
            && prints(
                alloc,
                texts::split_rev(alloc, &text, "")?,
                "[\"\", \"b\", \"é\", \"a\", \"\"]",
            )?
            && prints(alloc, texts::split(alloc, &run, "aa")?, "[\"\", \"a\"]")?
            && prints(alloc, texts::split_rev(alloc, &run, "aa")?, "[\"\", \"a\"]")?
            && prints(
                alloc,
                texts::split_words(alloc, &words)?,
                "[\"a\", \"é\", \"b\"]",
            )?
            && texts::split_words(alloc, &none)?.is_empty(),
    )
}

#[test]
fn texts_are_split_into_characters_and_words(rt: HostRuntime) {
    assert!(rt; matches!(texts_are_split_everywhere(rt.alloc()), Ok(true)));
}

/// A map with unit, an array and a map.
fn nested_map(alloc: Global) -> Result<Map, EvalAltResult> {
    let mut inside = Map::new(alloc);
    maps::set(&mut inside, "c", Dynamic::from_text(alloc, "x")?)?;
    let mut map = Map::new(alloc);
    maps::set(&mut map, "a", Dynamic::UNIT)?;
    maps::set(
        &mut map,
        "b",
        Dynamic::from_array(array_of(alloc, &[1, 2])?),
    )?;
    maps::set(&mut map, "d", Dynamic::from_map(inside))?;
    Ok(map)
}

/// Puts a holder of a map's own cell into the map.
fn hold_itself(alloc: Global, store: &mut Store, held: &mut Dynamic) -> Result<(), EvalAltResult> {
    held.share_in_place(store)?;
    let again = held.copy(alloc)?;
    if let Some(map) = held.write_lock::<Map>(store) {
        maps::set(map, "me", again)?;
    }
    Ok(())
}

fn maps_are_json(alloc: Global) -> Result<bool, EvalAltResult> {
    let mut store = Store::new(alloc);
    let map = nested_map(alloc)?;
    let plain = maps::to_json(alloc, &store, &map)?;
    let mut held = Dynamic::from_map(map);
    hold_itself(alloc, &mut store, &mut held)?;
    let mut around = Map::new(alloc);
    maps::set(&mut around, "\"", held.copy(alloc)?)?;
    maps::set(&mut around, "m", held)?;
    let shared = maps::to_json(alloc, &store, &around)?;
    let inside = "{\"a\":null,\"b\":[1, 2],\"d\":{\"c\":\"x\"},\"me\":null}";
    let wanted = format!(in alloc; "{{\"\\\"\":{inside},\"m\":{inside}}}")?;
    Ok(
        plain.as_str() == "{\"a\":null,\"b\":[1, 2],\"d\":{\"c\":\"x\"}}"
            && shared.as_str() == wanted.as_str(),
    )
}

#[test]
fn maps_are_written_as_json(rt: HostRuntime) {
    assert!(rt; matches!(maps_are_json(rt.alloc()), Ok(true)));
}

fn texts_are_padded(alloc: Global) -> Result<bool, EvalAltResult> {
    let mut text = ImmutableString::from_str(alloc, "x")?;
    texts::pad_with_string(alloc, &LIMITS, &mut text, 4, "ab")?;
    let over_and_over = text.as_str() == "xaba";
    texts::pad(alloc, &LIMITS, &mut text, 6, 'é')?;
    let full = texts::pad(alloc, &LIMITS, &mut text, 7, '.').is_err();
    Ok(over_and_over && full && text.as_str() == "xabaéé")
}

#[test]
fn texts_get_a_number_of_characters(rt: HostRuntime) {
    assert!(rt; matches!(texts_are_padded(rt.alloc()), Ok(true)));
}

fn ints_in_a_radix() -> bool {
    let read = matches!(ints::parse_int_radix(" -fF ", 16), Ok(-255));
    read && ints::parse_int_radix("1", 37).is_err() && ints::parse_int_radix("2", 2).is_err()
}

#[test]
fn ints_are_read_in_a_radix(rt: HostRuntime) {
    assert!(rt; ints_in_a_radix());
}

fn blobs_and_ints(alloc: Global) -> Result<bool, EvalAltResult> {
    let mut bytes = blobs::blob(alloc, &LIMITS, 2, 258)?;
    blobs::push(&mut bytes, &LIMITS, -1)?;
    let ends = blobs::get(&bytes, -1) == Some(255) && blobs::get(&bytes, 3).is_none();
    let ints = prints(alloc, blobs::to_array(alloc, &bytes)?, "[2, 2, 255]")?;
    let least = ints::abs(INT::MIN).is_err() && matches!(ints::parse_int(" -7 "), Ok(-7));
    Ok(ends && ints && least && ints::to_string(alloc, -12)?.as_str() == "-12")
}

#[test]
fn blobs_have_the_low_bytes_of_ints(rt: HostRuntime) {
    assert!(rt; matches!(blobs_and_ints(rt.alloc()), Ok(true)));
}

fn ints_and_ranges() -> bool {
    let signs = ints::sign(-7) == -1 && ints::sign(0) == 0 && ints::sign(9) == 1;
    let odd = ints::is_odd(-3) && !ints::is_odd(4) && !ints::is_even(7);
    let even = ints::is_even(INT::MIN) && ints::is_zero(0) && !ints::is_zero(1);
    let range = ranges::range(2, 5);
    let held = ranges::contains(&range, 2) && !ranges::contains(&range, 5);
    let last = InclusiveRange { start: 2, end: 2 };
    let one = ranges::contains_with_end(&last, 2) && !ranges::is_empty_with_end(&last);
    let none = ranges::is_empty(&ranges::range(2, 2)) && !ranges::is_empty(&range);
    signs && odd && even && held && one && none
}

#[test]
fn ints_and_ranges_are_asked(rt: HostRuntime) {
    assert!(rt; ints_and_ranges());
}

fn bytes_of_texts(alloc: Global) -> Result<bool, EvalAltResult> {
    let text = ImmutableString::from_str(alloc, "xé")?;
    let mut bytes = texts::to_blob(alloc, &LIMITS, &text)?;
    let are_there = blobs::contains(&bytes, 195) && !blobs::contains(&bytes, 0);
    let low = blobs::contains(&bytes, 256 + 169) && !blobs::is_empty(&bytes);
    let ints = prints(alloc, blobs::to_array(alloc, &bytes)?, "[120, 195, 169]")?;
    blobs::clear(&mut bytes);
    Ok(texts::bytes(&text) == 3 && are_there && low && ints && blobs::is_empty(&bytes))
}

#[test]
fn texts_have_bytes(rt: HostRuntime) {
    assert!(rt; matches!(bytes_of_texts(rt.alloc()), Ok(true)));
}

fn bits_of_ints(alloc: Global) -> Result<bool, EvalAltResult> {
    let mut number = 0b1011;
    let asked = bits::get_bit(number, 0) == Some(true) && bits::get_bit(number, -1) == Some(false);
    let none = bits::get_bit(number, 64).is_none() && bits::get_bit(number, -65).is_none();
    let parts = bits::get_bits(number, 1, 3) == Some(5) && bits::get_bits(number, 99, 0) == Some(0);
    let set = bits::set_bits(&mut number, 4, 4, 31) && number == 251;
    let top = bits::set_bit(&mut number, -1, true) && number == INT::MIN + 251;
    let refused = !bits::set_bits(&mut number, 64, 1, 1) && number == INT::MIN + 251;
    let cut = bits::get_bits(number, 60, 99) == Some(8) && bits::mask(62, 2) == -4 << 60;
    let all = bits::bits(alloc, 5)?;
    let lowest = arrays::get(&all, 0).is_some_and(|bit| bit.as_bool(&Store::new(alloc))
        == Ok(true));
    let written = ints::to_hex(alloc, -1)?.as_str() == "ffffffffffffffff"
        && ints::to_octal(alloc, 8)?.as_str() == "10"
        && ints::to_binary(alloc, 0)?.as_str() == "0";
    let many = lowest && all.len() == 64 && bits::mask(0, 0) == 0;
    Ok(asked && none && parts && set && top && refused && cut && many && written)
}

#[test]
fn bits_of_ints_are_read_and_set(rt: HostRuntime) {
    assert!(rt; matches!(bits_of_ints(rt.alloc()), Ok(true)));
}

fn written_bytes(alloc: Global) -> Result<bool, EvalAltResult> {
    let mut bytes = blobs::blob(alloc, &LIMITS, 4, 0)?;
    blobs::write_le(&mut bytes, 1, 2, 0x010203);
    let low = prints(alloc, blobs::to_array(alloc, &bytes)?, "[0, 3, 2, 0]")?;
    blobs::write_be(&mut bytes, -2, 9, 0x0102030405060708);
    let high = prints(alloc, blobs::to_array(alloc, &bytes)?, "[0, 3, 1, 2]")?;
    let read = blobs::parse_le_int(&bytes, 1, 2) == 0x0103
        && blobs::parse_be_int(&bytes, -1, 1) == 2 << 56
        && blobs::parse_le_int(&bytes, 9, 9) == 0;
    blobs::write_ascii(&mut bytes, 1, 2, "éabc");
    let ascii = prints(alloc, blobs::to_array(alloc, &bytes)?, "[0, 97, 98, 2]")?;
    blobs::write_utf8(&mut bytes, 2, 9, "éé");
    let utf8 = blobs::as_string(alloc, &bytes)?.as_str() == "\0aé";
    blobs::set(&mut bytes, 2, 255);
    let broken = blobs::as_string(alloc, &bytes)?.as_str() == "\0a\u{fffd}\u{fffd}";
    Ok(low && high && read && ascii && utf8 && broken)
}

#[test]
fn ints_and_texts_are_written_to_blobs(rt: HostRuntime) {
    assert!(rt; matches!(written_bytes(rt.alloc()), Ok(true)));
}

fn moved_items(alloc: Global) -> Result<bool, EvalAltResult> {
    let mut items = array_of(alloc, &[1, 2, 3, 4])?;
    let removed = prints(alloc, arrays::drain(alloc, &mut items, 1, 2)?, "[2, 3]")?;
    let none = arrays::drain(alloc, &mut items, 2, 5)?.is_empty();
    let others = prints(alloc, arrays::retain(alloc, &mut items, -1, 1)?, "[1]")?;
    Ok(removed && none && others && prints(alloc, items, "[4]")?)
}

#[test]
fn items_are_moved_out_of_arrays(rt: HostRuntime) {
    assert!(rt; matches!(moved_items(rt.alloc()), Ok(true)));
}

fn parts_of_texts(alloc: Global) -> Result<bool, EvalAltResult> {
    let mut text = ImmutableString::from_str(alloc, "éaéb")?;
    let found = texts::index_of_from(&text, "é", 1) == Some(2)
        && texts::index_of_from(&text, "é", -1).is_none()
        && texts::index_of_from(&text, "é", -9) == Some(0)
        && texts::index_of_from(&text, "", 4).is_none();
    texts::remove(alloc, &mut text, "é")?;
    let cases = chars::to_upper('é') == 'É' && chars::to_upper('ß') == 'ß';
    let lower = chars::to_lower('É') == 'é' && chars::to_int('é') == 233;
    Ok(found && cases && lower && text.as_str() == "ab")
}

#[test]
fn parts_are_found_in_texts(rt: HostRuntime) {
    assert!(rt; matches!(parts_of_texts(rt.alloc()), Ok(true)));
}
