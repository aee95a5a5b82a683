//! The forms: what each row could be under the port's promises.

use crate::maps::{workload, Blocks, Chunks, List, Slots, Sorted, Tree};
use crate::operators::Token;
use crate::scopes::Scope;
use crate::value::Text;
use crate::{assigns, commands, evaluates, hashes, ints, operators, prints, scopes, singles, texts, visible};
use std::collections::BTreeMap;

/// A form of a row.
pub struct Form {
    /// The number of the row's workload.
    pub row: u32,
    pub name: &'static str,
    /// Whether it keeps the promises; the others are for comparison.
    pub keeps: bool,
    pub run: fn(usize) -> u64,
}

const fn form(row: u32, name: &'static str, run: fn(usize) -> u64) -> Form {
    Form { row, name, keeps: true, run }
}

const fn beside(row: u32, name: &'static str, run: fn(usize) -> u64) -> Form {
    Form { row, name, keeps: false, run }
}

/// The maps on a row.
macro_rules! maps {
    ($row:literal) => {
        [
            form($row, "std's tree with values in it", |n| workload::<Tree>($row, n)),
            form($row, "std's tree of slots", |n| workload::<Slots<BTreeMap<String, usize>>>($row, n)),
            form($row, "a sorted list of slots with 12 places", |n| workload::<Slots<List<12>>>($row, n)),
            form($row, "one sorted list with 4 places", |n| workload::<Sorted<4>>($row, n)),
            form($row, "one sorted list with 12 places", |n| workload::<Sorted<12>>($row, n)),
            form($row, "sorted chunks", |n| workload::<Chunks>($row, n)),
            beside($row, "the keys' blocks alone", |n| workload::<Blocks>($row, n)),
        ]
    };
}

/// The same where one sorted list would take too long.
macro_rules! large_maps {
    ($row:literal) => {
        [
            form($row, "std's tree with values in it", |n| workload::<Tree>($row, n)),
            form($row, "std's tree of slots", |n| workload::<Slots<BTreeMap<String, usize>>>($row, n)),
            form($row, "sorted chunks", |n| workload::<Chunks>($row, n)),
            beside($row, "the keys' blocks alone", |n| workload::<Blocks>($row, n)),
        ]
    };
}

const INTS: [Form; 10] = [
    form(4, "own int first", |n| ints::as_int(n, ints::own_first)),
    form(4, "holder first", |n| ints::as_int(n, ints::holder_first)),
    form(4, "one match", |n| ints::as_int(n, ints::one_match)),
    form(5, "own int first", |n| ints::set_int(n, ints::write_own_first)),
    form(5, "holder first", |n| ints::set_int(n, ints::write_holder_first)),
    form(5, "one match", |n| ints::set_int(n, ints::write_by_one_match)),
    form(5, "an exchange", |n| ints::set_int(n, ints::exchange)),
    form(30, "own int first", |n| ints::array_sum(n, ints::own_first)),
    form(30, "holder first", |n| ints::array_sum(n, ints::holder_first)),
    form(30, "one match", |n| ints::array_sum(n, ints::one_match)),
];

const SINGLES: [Form; 14] = [
    form(3, "a count", singles::copy_text),
    form(9, "one match for both", singles::tag_by_one_match),
    form(9, "its place by a call", singles::tag_by_call),
    form(9, "a call each", singles::tag_by_two_calls),
    form(41, "own int first", singles::held_own_first),
    form(41, "cell first", singles::held_cell_first),
    form(41, "marks apart", singles::held_marks_apart),
    form(46, "copied and flattened", |n| singles::flattened(n, singles::copy_and_flatten)),
    form(46, "flattened by a call", |n| singles::flattened(n, singles::copy_and_flatten_by_call)),
    form(46, "one flat copy", |n| singles::flattened(n, singles::copy_flat)),
    form(162, "ints moved out", singles::typed_array),
    form(163, "one by one", singles::array_one_by_one),
    form(163, "extended", singles::array_extended),
    form(163, "written over units", singles::array_written_over),
];

const TEXTS: [Form; 23] = [
    form(80, "copied into zeros", |n| texts::make(n, 5, |text| Some(Text::new(text)))),
    form(80, "a number", |n| texts::make(n, 5, Text::of_number)),
    form(80, "its block first", |n| texts::make(n, 5, Text::count_first)),
    form(81, "bytes boxed at once", |n| texts::make(n, 100, |text| Some(Text::new(text)))),
    form(81, "bytes reserved and copied", |n| texts::make(n, 100, Text::reserved)),
    form(81, "bytes copied 16 at once", |n| texts::make(n, 100, Text::by_sixteen)),
    form(81, "the count's block first", |n| texts::make(n, 100, Text::count_first)),
    beside(81, "one block and two words", texts::make_in_one_block),
    form(82, "assigned", |n| texts::copy(n, |slot, text| *slot = text.clone())),
    form(82, "refused when full", |n| texts::copy(n, |slot, text| _ = text.counted().map(|copy| *slot = copy))),
    form(82, "exchanged", |n| texts::copy(n, |slot, text| drop(std::mem::replace(slot, text.clone())))),
    form(86, "copied into zeros", |n| texts::joined(n, |a, b| Some(a.joined(b)))),
    form(86, "its block first", |n| texts::joined(n, Text::joined_in_place)),
    form(86, "by a list", |n| texts::joined(n, Text::joined_by_list)),
    form(83, "by words", |n| texts::equal(n, |a, b| texts::by_words(a, b).is_eq())),
    form(83, "by 16 bytes", |n| texts::equal(n, texts::same_by::<16>)),
    form(83, "by 32 bytes", |n| texts::equal(n, texts::same_by::<32>)),
    form(83, "by 64 bytes", |n| texts::equal(n, texts::same_by::<64>)),
    beside(83, "memcmp", |n| texts::equal(n, |a, b| a == b)),
    form(84, "by words", |n| texts::order(n, texts::by_words)),
    form(84, "by 16 bytes", |n| texts::order(n, texts::by_lanes::<16>)),
    form(84, "by 32 bytes", |n| texts::order(n, texts::by_lanes::<32>)),
    beside(84, "memcmp", |n| texts::order(n, texts::by_library)),
];

const HASHES: [Form; 18] = [
    form(85, "tail by parts", |n| hashes::hash(n, hashes::sip)),
    form(85, "tail byte by byte", |n| hashes::hash(n, hashes::bytewise)),
    form(85, "tail of the last word", |n| hashes::hash(n, hashes::last_word)),
    beside(85, "no hasher", hashes::hash_at_once),
    beside(85, "std's SipHash", |n| hashes::hash(n, hashes::library)),
    form(150, "nine bytes", |n| hashes::int_of_nine(n, hashes::sip)),
    form(150, "a number of 128 bits", hashes::int_of_number),
    form(150, "two words", hashes::int_of_two_words),
    form(150, "in place or in a block", hashes::int_in_place),
    form(150, "in place or in a block by a call", hashes::int_of_call),
    beside(150, "no hasher", hashes::int_at_once),
    beside(150, "std's SipHash", |n| hashes::int_of_nine(n, hashes::library)),
    form(151, "bytes in turn", |n| hashes::value_in_turn(n, hashes::sip)),
    form(151, "the first nine at once", |n| hashes::value_behind_nine(n, hashes::sip)),
    form(151, "the first nine at once and the tail of the last word", |n| hashes::value_behind_nine(n, hashes::last_word)),
    form(151, "over zeros", hashes::value_over_zeros),
    form(151, "by words", hashes::value_by_words),
    beside(151, "bytes not made", hashes::value_not_made),
];

const OPERATORS: [Form; 12] = [
    form(102, "result inlined", |n| operators::ints_inlined(Token::Plus, n)),
    form(102, "result of a call", |n| operators::ints_called(Token::Plus, n)),
    form(103, "result inlined", |n| operators::ints_inlined(Token::Multiply, n)),
    form(103, "result of a call", |n| operators::ints_called(Token::Multiply, n)),
    form(104, "result inlined", |n| operators::ints_inlined(Token::Less, n)),
    form(104, "result of a call", |n| operators::ints_called(Token::Less, n)),
    form(105, "result inlined", |n| operators::texts_inlined(Token::Plus, 5, n)),
    form(105, "result of a call", |n| operators::texts_called(Token::Plus, 5, n)),
    form(107, "result inlined", |n| operators::texts_inlined(Token::Less, 100, n)),
    form(107, "result of a call", |n| operators::texts_called(Token::Less, 100, n)),
    form(108, "result inlined", operators::chain_inlined),
    form(108, "result of a call", operators::chain_called),
];

const ASSIGNS: [Form; 17] = [
    form(110, "the whole value", |n| assigns::array_push(n, assigns::push_whole)),
    form(110, "the whole value by a call", |n| assigns::array_push(n, assigns::push_whole_called)),
    form(110, "an int by its parts", |n| assigns::array_push(n, assigns::push_by_parts)),
    form(110, "an int by its parts by a call", |n| assigns::array_push(n, assigns::push_by_parts_called)),
    form(110, "through a slot by a call", |n| assigns::array_push(n, assigns::push_by_swap)),
    form(113, "moved by a call", |n| assigns::blob_append(n, assigns::append_moved)),
    form(113, "copied", |n| assigns::blob_append(n, assigns::append_copied)),
    form(113, "copied by a call", |n| assigns::blob_append(n, assigns::append_copied_called)),
    form(113, "by words by a call", |n| assigns::blob_append(n, assigns::append_by_words)),
    form(113, "byte by byte by a call", |n| assigns::blob_append(n, assigns::append_bytewise)),
    form(114, "results inlined", evaluates::results_inlined),
    form(114, "results of calls", evaluates::results_of_calls),
    form(114, "results written in place", evaluates::results_in_place),
    form(114, "names as numbers", evaluates::names_as_numbers),
    form(114, "names as numbers and results of calls", evaluates::names_as_numbers_by_calls),
    form(114, "names as numbers and ints by parts", evaluates::ints_by_parts),
    beside(114, "operands not copied", evaluates::operands_not_copied),
];

const SCOPES: [Form; 8] = [
    form(130, "records", scopes::push_rewind),
    form(132, "records", scopes::push_pop),
    form(141, "each name sought", visible::by_search),
    form(141, "a filter of bits first", visible::by_filter),
    form(141, "names listed as numbers", visible::by_list),
    form(141, "a table of places", visible::by_table),
    beside(141, "a hashed set", visible::by_set),
    form(142, "items inlined", scopes::iterate),
];

/// The ways on a row of names that are sought from the last on.
macro_rules! sought {
    ($row:literal, $count:literal) => {
        [
            form($row, "two words that overlap", |n| scopes::get_last(n, $count, Scope::get)),
            form($row, "length and a number", |n| scopes::get_last(n, $count, Scope::get_by_number)),
            form($row, "byte by byte", |n| scopes::get_last(n, $count, Scope::get_bytewise)),
        ]
    };
}

/// The ways on a row of commands applied one by one.
macro_rules! applied {
    ($row:literal, $kind:literal) => {
        [
            form($row, "inlined", |n| commands::apply_inlined($kind, n)),
            form($row, "by calls", |n| commands::apply_by_calls($kind, n)),
            form($row, "written by calls", |n| commands::apply_into_place($kind, n)),
        ]
    };
}

/// The ways on a row of commands in a list.
macro_rules! ran {
    ($row:literal, $kind:literal) => {
        [
            form($row, "inlined", |n| commands::run_inlined($kind, n)),
            form($row, "by calls", |n| commands::run_by_calls($kind, n)),
            form($row, "written by calls over all places", |n| commands::run_into_places($kind, n)),
            form($row, "written by calls over the next place", |n| commands::run_into_next_place($kind, n)),
        ]
    };
}

const PRINTS: [Form; 14] = [
    form(8, "own int first", singles::is_int_own_first),
    form(8, "content first", singles::is_int_content_first),
    form(8, "holders by a call", singles::is_int_by_call),
    form(25, "by the library", |n| prints::hundred_ints(n, prints::by_library)),
    form(25, "digit by digit", |n| prints::hundred_ints(n, prints::digit_by_digit)),
    form(25, "two digits at a time", |n| prints::hundred_ints(n, prints::two_at_a_time)),
    form(25, "short ones by characters", |n| prints::hundred_ints(n, prints::short_by_characters)),
    form(26, "by the library", |n| prints::nested(n, prints::by_library)),
    form(26, "digit by digit", |n| prints::nested(n, prints::digit_by_digit)),
    form(26, "two digits at a time", |n| prints::nested(n, prints::two_at_a_time)),
    form(26, "short ones by characters", |n| prints::nested(n, prints::short_by_characters)),
    form(32, "by characters", |n| prints::texts(n, prints::by_characters)),
    form(32, "by runs", |n| prints::texts(n, prints::by_runs)),
    form(32, "plain ones at once", |n| prints::texts(n, prints::plain_at_once)),
];

/// All forms, in the order of the rows' groups.
#[must_use]
pub fn all() -> Vec<Form> {
    let mut forms = Vec::new();
    forms.extend(INTS.into_iter().chain(SINGLES).chain(PRINTS));
    forms.extend(maps!(60).into_iter().chain(maps!(61)).chain(large_maps!(62)));
    forms.extend(maps!(63).into_iter().chain(maps!(64)).chain(large_maps!(65)).chain(maps!(73)));
    forms.extend(maps!(66).into_iter().chain(maps!(67)).chain(large_maps!(68)));
    forms.extend(maps!(69).into_iter().chain(maps!(70)).chain(large_maps!(71)).chain(maps!(72)));
    forms.extend(TEXTS.into_iter().chain(HASHES));
    forms.extend(OPERATORS.into_iter().chain(ASSIGNS).chain(SCOPES));
    forms.extend(sought!(133, 10).into_iter().chain(sought!(134, 100)).chain(sought!(135, 1000)));
    forms.extend(applied!(1000, 0).into_iter().chain(applied!(1001, 1)).chain(applied!(1002, 2)).chain(applied!(1003, 3)));
    forms.extend(ran!(1100, 0).into_iter().chain(ran!(1101, 1)));
    forms
}
