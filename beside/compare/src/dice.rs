//! Random numbers (SplitMix64), and what single values are made of.

pub struct Dice(pub u64);

impl Dice {
    pub fn roll(&mut self) -> u64 {
        self.0 = self.0.wrapping_add(0x9e37_79b9_7f4a_7c15);
        let mut z = self.0;
        z = (z ^ (z >> 30)).wrapping_mul(0xbf58_476d_1ce4_e5b9);
        z = (z ^ (z >> 27)).wrapping_mul(0x94d0_49bb_1331_11eb);
        z ^ (z >> 31)
    }

    pub fn below(&mut self, n: u64) -> u64 {
        self.roll() % n
    }

    pub fn one_in(&mut self, n: u64) -> bool {
        self.below(n) == 0
    }

    pub fn pick<T: Clone>(&mut self, of: &[T]) -> T {
        of[self.below(of.len() as u64) as usize].clone()
    }
}

pub const CHARS: [char; 30] = [
    'a',
    'a',
    'a',
    'b',
    'b',
    'z',
    '0',
    ' ',
    '"',
    '\'',
    '\\',
    '\n',
    '\r',
    '\t',
    '\0',
    '\u{1}',
    '\u{1f}',
    '\u{7f}',
    'é',
    'é',
    '漢',
    '😀',
    '\u{80}',
    '\u{85}',
    '\u{ad}',
    '\u{301}',
    '\u{200b}',
    '\u{feff}',
    '\u{e000}',
    '\u{10ffff}',
];

pub fn int(d: &mut Dice) -> i64 {
    const ENDS: [i64; 26] = [
        i64::MIN,
        i64::MIN + 1,
        i64::MAX,
        i64::MAX - 1,
        -1,
        0,
        1,
        2,
        3,
        -2,
        -3,
        7,
        10,
        62,
        63,
        64,
        65,
        -63,
        -64,
        -65,
        255,
        256,
        -256,
        u32::MAX as i64,
        u32::MAX as i64 + 1,
        3_037_000_500,
    ];
    match d.below(8) {
        0..=4 => d.pick(&ENDS),
        5 => 1_i64 << d.below(63),
        6 => d.below(2000) as i64 - 1000,
        _ => d.roll().cast_signed(),
    }
}

pub fn small(d: &mut Dice) -> i64 {
    if d.one_in(8) {
        int(d)
    } else {
        d.below(12) as i64 - 2
    }
}

/// Lengths around those at which texts, names and keys begin to be compared, copied or stored in another way.
const BLOCKS: [usize; 30] =
    [3, 4, 5, 7, 8, 9, 15, 16, 17, 23, 24, 25, 31, 32, 33, 47, 48, 49, 55, 56, 57, 63, 64, 65, 79, 80, 81, 127, 128, 129];

/// A text of such a length, which differs from all others of it in at most one character.
pub fn block_text(d: &mut Dice) -> String {
    let mut text: String = (b'a'..=b'h').cycle().take(d.pick(&BLOCKS)).map(char::from).collect();
    if d.one_in(2) {
        let at = d.below(text.len() as u64) as usize;
        text.replace_range(at..=at, d.pick(&["x", "A", "\0", "é"]));
    }
    text
}

/// A key of a map: many have equal beginnings, or end in zeros.
pub fn key(d: &mut Dice) -> String {
    match d.below(8) {
        0..=3 => text(d),
        4 => "\0".repeat(d.below(10) as usize),
        5 => format!("a{}", "\0".repeat(d.below(10) as usize)),
        _ => {
            let front = &"begins_as_others_do_and_goes_on"[..d.pick(&[0, 6, 7, 8, 9, 15, 16, 17, 24])];
            format!("{front}{}", d.pick(&["", "a", "b", "\0", "aa", "é"]))
        }
    }
}

pub fn text(d: &mut Dice) -> String {
    let n = match d.below(16) {
        0..=2 => 0,
        3..=12 => d.below(4) + 1,
        13 => d.below(10),
        14 => d.below(20) + 15,
        _ => return block_text(d),
    };
    let plain = d.one_in(2);
    (0..n).map(|_| if plain { d.pick(&['a', 'a', 'b', 'é']) } else { d.pick(&CHARS) }).collect()
}

pub fn blob(d: &mut Dice) -> Vec<u8> {
    let n = match d.below(8) {
        0 | 1 => 0,
        2..=5 => d.below(4) + 1,
        6 => 8,
        _ => d.below(28),
    };
    (0..n).map(|_| d.pick(&[0, 1, 97, 127, 128, 255])).collect()
}

pub fn tag(d: &mut Dice) -> i32 {
    d.pick(&[1, -1, 7, i32::MIN, i32::MAX, 0])
}
