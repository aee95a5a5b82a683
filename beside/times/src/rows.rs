//! The rows of workloads, and what each takes.

use crate::{by_port, by_release, now};

/// A row: its name, the number of its workload, and how many operations a round has.
pub struct Row {
    pub name: &'static str,
    pub which: u32,
    pub operations: u64,
}

/// What a row takes, in nanoseconds an operation.
pub struct Taken {
    pub port: f64,
    pub release: f64,
    /// Whether both sides return the same checksum.
    pub agrees: bool,
}

const fn row(name: &'static str, which: u32, operations: u64) -> Row {
    Row { name, which, operations }
}

pub const ROWS: &[Row] = &[
    row("make_int", 0, 1),
    row("make_bool", 1, 1),
    row("copy_int", 2, 1),
    row("copy_text_value", 3, 1),
    row("as_int_own", 4, 1),
    row("set_int_own", 5, 1),
    row("type_name_mixed", 6, 1),
    row("type_id_mixed", 7, 1),
    row("is_int_mixed", 8, 1),
    row("tag_get_set", 9, 1),
    row("array_copy_1000_ints", 20, 1),
    row("array_copy_96_texts", 31, 1),
    row("nested_copy_11111", 21, 1),
    row("array_push_1000_per_item", 22, 1000),
    row("array_sum_1000_per_item", 30, 1000),
    row("is_locked_nested_11111", 23, 1),
    row("set_access_mode_1000", 24, 1),
    row("display_100_ints", 25, 1),
    row("debug_nested_11111", 26, 1),
    row("debug_96_texts", 32, 1),
    row("display_map_100", 27, 1),
    row("share_copy_drop", 40, 1),
    row("shared_as_int", 41, 1),
    row("shared_set_int", 42, 1),
    row("shared_add_one_instore", 43, 1),
    row("holder_copy", 44, 1),
    row("shared_array_push_per_item", 48, 1000),
    row("flatten_clone_shared_100", 45, 1),
    row("copy_flatten_int", 46, 1),
    row("copy_flatten_held_int", 47, 1),
    row("map_insert_10_per_key", 60, 10),
    row("map_insert_100_per_key", 61, 100),
    row("map_insert_100000_per_key", 62, 100_000),
    row("map_set_10_per_key", 74, 10),
    row("map_set_100_per_key", 75, 100),
    row("map_set_1000_per_key", 76, 1000),
    row("map_set_100000_per_key", 77, 100_000),
    row("map_insert_10_of_20_bytes", 200, 10),
    row("map_insert_100_of_20_bytes", 201, 100),
    row("map_insert_1000_of_20_bytes", 202, 1000),
    row("map_insert_100000_of_20_bytes", 203, 100_000),
    row("map_insert_10_of_40_bytes", 208, 10),
    row("map_insert_100_of_40_bytes", 209, 100),
    row("map_insert_1000_of_40_bytes", 210, 1000),
    row("map_insert_100000_of_40_bytes", 211, 100_000),
    row("map_get_10_of_20_bytes", 204, 10),
    row("map_get_100_of_20_bytes", 205, 100),
    row("map_get_1000_of_20_bytes", 206, 1000),
    row("map_get_100000_of_20_bytes", 207, 100_000),
    row("map_get_10_of_40_bytes", 212, 10),
    row("map_get_100_of_40_bytes", 213, 100),
    row("map_get_1000_of_40_bytes", 214, 1000),
    row("map_get_100000_of_40_bytes", 215, 100_000),
    row("map_get_10_per_key", 63, 10),
    row("map_get_100_per_key", 64, 100),
    row("map_get_100_through_value", 73, 100),
    row("map_get_100000_per_key", 65, 100_000),
    row("map_remove_insert_10_per_key", 66, 10),
    row("map_remove_insert_100_per_key", 67, 100),
    row("map_remove_insert_100000_per_key", 68, 100_000),
    row("map_iterate_10_per_key", 69, 10),
    row("map_iterate_100_per_key", 70, 100),
    row("map_iterate_100000_per_key", 71, 100_000),
    row("map_copy_100", 72, 1),
    row("map_copy_100000", 78, 1),
    row("text_make_5", 80, 1),
    row("text_make_100", 81, 1),
    row("text_copy", 82, 1),
    row("text_eq_100", 83, 1),
    row("text_cmp_100", 84, 1),
    row("text_hash_100", 85, 1),
    row("text_concat_5_5", 86, 1),
    row("text_concat_100_100", 87, 1),
    row("text_minus_100", 88, 1),
    row("text_minus_char_100", 90, 1),
    row("text_with_char_1000", 89, 1),
    row("text_char_count_1000", 91, 1),
    row("text_at_1000", 92, 1),
    row("text_append_5_per_append", 93, 100_000),
    row("text_append_char_per_append", 94, 100_000),
    row("lookup_ints", 100, 1),
    row("lookup_mixed", 101, 1),
    row("add_ints", 102, 1),
    row("multiply_ints", 103, 1),
    row("compare_ints", 104, 1),
    row("join_texts_5", 105, 1),
    row("join_texts_100", 106, 1),
    row("compare_texts_100", 107, 1),
    row("add_chain", 108, 1),
    row("add_assign_int", 109, 1),
    row("array_assign_push_per_item", 110, 1000),
    row("blob_assign_push_per_item", 111, 1000),
    row("array_assign_append_10", 112, 100),
    row("blob_assign_append_10", 113, 100),
    row("evaluate_x_plus_y_times_2", 114, 1),
    row("scope_push_rewind_per_entry", 130, 10),
    row("scope_push_entry_rewind_per_entry", 131, 10),
    row("scope_push_pop_per_entry", 132, 10),
    row("scope_get_last_of_10", 133, 1),
    row("scope_get_last_of_100", 134, 1),
    row("scope_get_last_of_1000", 135, 1),
    row("scope_get_first_of_10", 136, 1),
    row("scope_get_first_of_100", 137, 1),
    row("scope_get_first_of_1000", 138, 1),
    row("scope_contains_miss_100", 139, 1),
    row("scope_set_or_push_10", 140, 1),
    row("scope_clone_visible_100", 141, 1),
    row("scope_iterate_100", 142, 1),
    row("scope_iterate_raw_100", 143, 1),
    row("hash_int", 150, 1),
    row("hash_text_100", 151, 1),
    row("hash_1000_ints", 152, 1),
    row("hash_10_maps_of_10", 153, 1),
    row("scan_1000_ints", 154, 1),
    row("clone_cast_int", 160, 1),
    row("try_cast_text", 161, 1),
    row("into_typed_array_1000", 162, 1),
    row("from_vec_1000", 163, 1),
    row("target_char_1000", 170, 1),
    row("target_byte", 171, 1),
    row("target_bit", 172, 1),
    row("target_shared", 173, 1),
    row("apply_put_copy_drop_per_command", 1000, 1024),
    row("apply_write_ask_shared_per_command", 1001, 1024),
    row("apply_scope_per_command", 1002, 1536),
    row("apply_show_per_command", 1003, 1024),
    row("run_put_copy_drop_per_command", 1100, 1024),
    row("run_write_ask_shared_per_command", 1101, 1024),
];

/// The workloads of a side.
pub type Side = fn(u32, usize) -> u64;

/// The time of a run of this many rounds, and its checksum.
#[must_use]
pub fn timed(side: Side, which: u32, rounds: usize) -> (u64, u64) {
    let start = now();
    let sum = side(which, rounds);
    (now() - start, sum)
}

/// The number of rounds that takes some 15 ms, and several times as long as a run without rounds.
#[must_use]
pub fn calibrated(side: Side, which: u32) -> usize {
    let set_up = (0..3).map(|_| timed(side, which, 0).0).min().unwrap_or(0);
    let mut rounds = 1;
    loop {
        let taken = timed(side, which, rounds).0.saturating_sub(set_up);
        if taken >= 8_000_000 || rounds >= 1 << 40 {
            return (rounds as u64 * 15_000_000.max(4 * set_up) / taken.max(1)).max(1) as usize;
        }
        rounds = if taken < 500_000 { rounds * 8 } else { (rounds as u64 * 9_000_000 / taken) as usize + 1 };
    }
}

impl Row {
    /// Measures the row: the least of this many turns, in which the sides alternate, minus the time of a run without rounds.
    #[must_use]
    pub fn measured(&self, turns: usize) -> Taken {
        let sides: [Side; 2] = [by_port, by_release];
        let agrees = by_port(self.which, 67) == by_release(self.which, 67);
        let rounds = sides.map(|side| calibrated(side, self.which));
        let (mut set_ups, mut least) = ([u64::MAX; 2], [u64::MAX; 2]);
        for turn in 0..turns {
            for side in [turn % 2, 1 - turn % 2] {
                set_ups[side] = set_ups[side].min(timed(sides[side], self.which, 0).0);
                least[side] = least[side].min(timed(sides[side], self.which, rounds[side]).0);
            }
        }
        let each = |side: usize| {
            let taken = least[side].saturating_sub(set_ups[side]).max(1);
            taken as f64 / rounds[side] as f64 / self.operations as f64
        };
        Taken { port: each(0), release: each(1), agrees }
    }
}
