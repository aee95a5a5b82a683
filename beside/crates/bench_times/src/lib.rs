//! Workloads over script values, which `beside/bench` compares with the same workloads over rhai's
//! own values.
//!
//! Each takes a number of iterations and returns a checksum, which is compared.
#![tactic(auto)]

mod arrays;
mod given;
mod maps;
mod ops;
mod scopes;
mod shares;
mod singles;
mod texts;
mod walks;
mod worlds;

use crate::given::{mixed, sixty_four};
use rhai_text::Token;
use rhai_value::Store;
use std::alloc::{AllocError, Global};
use std::mem::size_of;

fn sizes(which: u32) -> usize {
    match which {
        0 => size_of::<rhai_value::Dynamic>(),
        1 => size_of::<rhai_value::Union>(),
        2 => size_of::<rhai_value::Cell>(),
        3 => size_of::<rhai_value::Map>(),
        4 => size_of::<rhai_text::ImmutableString>(),
        5 => size_of::<rhai_value::FnPtr>(),
        6 => size_of::<rhai_value::Host>(),
        _ => 0,
    }
}

fn values(alloc: Global, which: u32, n: usize) -> Result<u64, AllocError> {
    match which {
        0 => singles::make_int(alloc, n),
        1 => singles::make_bool(alloc, n),
        2 => singles::copy_int(alloc, n),
        3 => singles::copy_text(alloc, n),
        4 => singles::as_int_own(alloc, n),
        5 => singles::set_int_own(alloc, n),
        6 => singles::type_name_mixed(alloc, n),
        7 => singles::type_id_mixed(alloc, n),
        8 => singles::is_int_mixed(alloc, n),
        9 => singles::tag_set_get(alloc, n),
        20 => arrays::copy_ints(alloc, n),
        21 => arrays::copy_nested(alloc, n),
        22 => arrays::push_1000(alloc, n),
        23 => arrays::is_locked_nested(alloc, n),
        24 => arrays::set_mode_1000(alloc, n),
        25 => arrays::display_ints(alloc, n),
        26 => arrays::debug_nested(alloc, n),
        27 => arrays::display_map(alloc, n),
        28 => arrays::hold_ints(alloc, n),
        29 => arrays::hold_nested(alloc, n),
        30 => arrays::sum_ints(alloc, n),
        31 => arrays::copy_texts(alloc, n),
        32 => arrays::debug_texts(alloc, n),
        _ => shared(alloc, which, n),
    }
}

fn shared(alloc: Global, which: u32, n: usize) -> Result<u64, AllocError> {
    match which {
        40 => shares::share_copy_drop(alloc, n),
        41 => shares::as_int(alloc, n),
        42 => shares::set_int(alloc, n),
        43 => shares::add_one(alloc, n),
        44 => shares::copy_holder(alloc, n),
        45 => shares::flatten_clone_100(alloc, n),
        46 => shares::flatten_own(alloc, n),
        47 => shares::flatten_held(alloc, n),
        48 => shares::push_through(alloc, n),
        _ => keyed(alloc, which, n),
    }
}

fn keyed(alloc: Global, which: u32, n: usize) -> Result<u64, AllocError> {
    match which {
        60 => maps::insert(alloc, n, "key", 10),
        61 => maps::insert(alloc, n, "key", 100),
        62 => maps::insert(alloc, n, "key", 100_000),
        63 => maps::get(alloc, n, "key", 10),
        64 => maps::get(alloc, n, "key", 100),
        65 => maps::get(alloc, n, "key", 100_000),
        66 => maps::remove_insert(alloc, n, 10),
        67 => maps::remove_insert(alloc, n, 100),
        68 => maps::remove_insert(alloc, n, 100_000),
        69 => maps::iterate(alloc, n, 10),
        70 => maps::iterate(alloc, n, 100),
        71 => maps::iterate(alloc, n, 100_000),
        72 => maps::copy(alloc, n, 100),
        73 => maps::get_through(alloc, n, 100),
        74 => maps::set(alloc, n, 10),
        75 => maps::set(alloc, n, 100),
        76 => maps::set(alloc, n, 1000),
        77 => maps::set(alloc, n, 100_000),
        78 => maps::copy(alloc, n, 100_000),
        _ => keyed_alike(alloc, which, n),
    }
}

/// Keys of 20 and of 40 bytes that differ in the last ten.
fn keyed_alike(alloc: Global, which: u32, n: usize) -> Result<u64, AllocError> {
    let twenty = "some_name_";
    let forty = "some_name_that_is_much_longer_";
    match which {
        200 => maps::insert(alloc, n, twenty, 10),
        201 => maps::insert(alloc, n, twenty, 100),
        202 => maps::insert(alloc, n, twenty, 1000),
        203 => maps::insert(alloc, n, twenty, 100_000),
        204 => maps::get(alloc, n, twenty, 10),
        205 => maps::get(alloc, n, twenty, 100),
        206 => maps::get(alloc, n, twenty, 1000),
        207 => maps::get(alloc, n, twenty, 100_000),
        208 => maps::insert(alloc, n, forty, 10),
        209 => maps::insert(alloc, n, forty, 100),
        210 => maps::insert(alloc, n, forty, 1000),
        211 => maps::insert(alloc, n, forty, 100_000),
        212 => maps::get(alloc, n, forty, 10),
        213 => maps::get(alloc, n, forty, 100),
        214 => maps::get(alloc, n, forty, 1000),
        215 => maps::get(alloc, n, forty, 100_000),
        _ => texted(alloc, which, n),
    }
}

fn texted(alloc: Global, which: u32, n: usize) -> Result<u64, AllocError> {
    match which {
        80 => texts::make_short(alloc, n),
        81 => texts::make_long(alloc, n),
        82 => texts::copy(alloc, n),
        83 => texts::equal(alloc, n),
        84 => texts::order(alloc, n),
        85 => texts::hash(alloc, n),
        86 => texts::concat_short(alloc, n),
        87 => texts::concat_long(alloc, n),
        88 => texts::minus(alloc, n),
        89 => texts::with_char(alloc, n),
        90 => texts::minus_char(alloc, n),
        91 => texts::char_count(alloc, n),
        92 => texts::char_at(alloc, n),
        93 => ops::append_text(alloc, n),
        94 => ops::append_char(alloc, n),
        _ => operated(alloc, which, n),
    }
}

fn lookups(alloc: Global, which: u32, n: usize) -> Result<u64, AllocError> {
    let mut store = Store::new(alloc);
    let values = if which == 100 {
        sixty_four(alloc)?
    } else {
        mixed(alloc, &mut store)?
    };
    Ok(ops::lookups(&store, &values, n))
}

fn operated(alloc: Global, which: u32, n: usize) -> Result<u64, AllocError> {
    match which {
        100 => lookups(alloc, which, n),
        101 => lookups(alloc, which, n),
        102 => ops::on_ints(Token::Plus, alloc, n),
        103 => ops::on_ints(Token::Multiply, alloc, n),
        104 => ops::on_ints(Token::LessThan, alloc, n),
        105 => ops::on_texts(Token::Plus, alloc, 5, n),
        106 => ops::on_texts(Token::Plus, alloc, 100, n),
        107 => ops::on_texts(Token::LessThan, alloc, 100, n),
        108 => ops::add_chain(alloc, n),
        109 => ops::assign_ints(alloc, n),
        110 => ops::push_1000(alloc, false, n),
        111 => ops::push_1000(alloc, true, n),
        112 => ops::append_1000(alloc, false, n),
        113 => ops::append_1000(alloc, true, n),
        114 => ops::evaluate(alloc, n),
        _ => scoped(alloc, which, n),
    }
}

fn scoped(alloc: Global, which: u32, n: usize) -> Result<u64, AllocError> {
    match which {
        130 => scopes::push_rewind(alloc, n),
        131 => scopes::push_entries(alloc, n),
        132 => scopes::push_pop(alloc, n),
        133 => scopes::get(alloc, n, 10, 9),
        134 => scopes::get(alloc, n, 100, 99),
        135 => scopes::get(alloc, n, 1000, 999),
        136 => scopes::get(alloc, n, 10, 0),
        137 => scopes::get(alloc, n, 100, 0),
        138 => scopes::get(alloc, n, 1000, 0),
        139 => scopes::contains_miss(alloc, n),
        140 => scopes::set_or_push(alloc, n),
        141 => scopes::clone_visible(alloc, n),
        142 => scopes::iterate(alloc, n),
        143 => scopes::iterate_raw(alloc, n),
        _ => walked(alloc, which, n),
    }
}

fn walked(alloc: Global, which: u32, n: usize) -> Result<u64, AllocError> {
    match which {
        150 => walks::hash_int(alloc, n),
        151 => walks::hash_text(alloc, n),
        152 => walks::hash_ints(alloc, n),
        153 => walks::hash_maps(alloc, n),
        154 => walks::scan_ints(alloc, n),
        160 => walks::clone_cast(alloc, n),
        161 => walks::try_cast_text(alloc, n),
        162 => walks::typed_array(alloc, n),
        163 => walks::from_vec(alloc, n),
        170 => walks::write_char(alloc, n),
        171 => walks::write_byte(alloc, n),
        172 => walks::write_bit(alloc, n),
        173 => walks::write_shared(alloc, n),
        _ => Ok(0),
    }
}

/// Runs a workload; all ones if an allocation fails.
#[unsafe(no_mangle)]
pub extern "C" fn rattle_workload(alloc: Global, which: u32, n: usize) -> u64 {
    match values(alloc, which, n) {
        Ok(sum) => sum,
        Err(_) => u64::MAX,
    }
}

/// Applies commands one by one; all ones if an allocation fails.
#[unsafe(no_mangle)]
pub extern "C" fn rattle_apply(alloc: Global, kind: u32, n: usize) -> u64 {
    match worlds::apply_all(alloc, kind, n) {
        Ok(sum) => sum,
        Err(_) => u64::MAX,
    }
}

/// Runs commands as a list; all ones if an allocation fails.
#[unsafe(no_mangle)]
pub extern "C" fn rattle_run(alloc: Global, kind: u32, n: usize) -> u64 {
    match worlds::run_all(alloc, kind, n) {
        Ok(sum) => sum,
        Err(_) => u64::MAX,
    }
}

/// The size of a type.
#[unsafe(no_mangle)]
pub extern "C" fn rattle_size(which: u32) -> usize {
    sizes(which)
}
