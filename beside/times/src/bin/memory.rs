//! Bytes and calls of malloc for values that are built and held (feature `counts`).
//!
//! Usage: memory PAGE

#[cfg(feature = "counts")]
mod held {
    use times::{by_port, by_release, counted};

    /// A row: what is held, the number of its workload, how many rounds, and how many parts that makes.
    struct Held(&'static str, u32, usize, f64);

    const HELD: [Held; 7] = [
        Held("an array of a million ints, an int", 28, 1_000_000, 1e6),
        Held("arrays of ten in six levels, a value", 29, 6, 1_111_111.0),
        Held("a map of 100,000 keys, a key", 62, 1, 1e5),
        Held("a map of 100 keys, a key", 61, 1, 100.0),
        Held("a map of ten keys, a key", 60, 1, 10.0),
        Held("an array of 96 texts, a text", 31, 0, 96.0),
        Held("64 shared ints, an int", 41, 0, 64.0),
    ];

    impl Held {
        /// Peak bytes and calls of malloc a part, less those of the keys themselves.
        fn of(&self, side: fn(u32, usize) -> u64) -> (f64, f64) {
            let Self(_, which, rounds, parts) = *self;
            let counted_of = |rounds| counted(|| std::hint::black_box(side(which, rounds)));
            let (bytes, calls) = counted_of(rounds);
            let (less, fewer) = if matches!(which, 60..=62) { counted_of(0) } else { (0, 0) };
            (bytes.saturating_sub(less) as f64 / parts, calls.saturating_sub(fewer) as f64 / parts)
        }
    }

    pub fn table() -> String {
        let mut text = String::from("| held | bytes here | rhai | ratio | blocks here | rhai |\n|---|---|---|---|---|---|\n");
        for held in &HELD {
            let ((a, b), (c, d)) = (held.of(by_port), held.of(by_release));
            text += &format!("| {} | {a:.0} | {c:.0} | {:.2} | {b:.2} | {d:.2} |\n", held.0, a / c);
        }
        text
    }
}

#[cfg(feature = "counts")]
fn main() {
    let path = std::env::args().nth(1).expect("the page");
    let table = held::table();
    println!("{table}");
    let page = std::fs::read_to_string(&path).expect("the page");
    std::fs::write(&path, times::page::with_part(&page, "memory", &table)).expect("the page");
}

#[cfg(not(feature = "counts"))]
fn main() {
    eprintln!("build with --features counts");
}
