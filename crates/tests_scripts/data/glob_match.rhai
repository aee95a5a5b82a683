// patterns with `*`, `?` and sets against texts
fn matches(pattern, text) {
    if pattern.is_empty() { return text.is_empty(); }
    let rest = pattern.sub_string(1);
    switch pattern[0] {
        '*' => {
            for start in 0..=text.len() {
                if matches(rest, text.sub_string(start)) { return true; }
            }
            false
        }
        '?' => !text.is_empty() && matches(rest, text.sub_string(1)),
        '[' => {
            let end = pattern.index_of(']');
            if end < 0 { throw `open set in ${pattern}`; }
            let letters = pattern[1..end];
            let wanted = true;
            if letters.starts_with("!") { wanted = false; letters.remove('!'); }
            !text.is_empty() && (text[0] in letters) == wanted && matches(pattern.sub_string(end + 1), text.sub_string(1))
        }
        _ => !text.is_empty() && text[0] == pattern[0] && matches(rest, text.sub_string(1))
    }
}

let files = ["main.rs", "lib.rs", "notes.txt", "a.b.c", "", "data1.csv", "data22.csv", "datax.csv"];
for pattern in ["*.rs", "*", "????.rs", "data[0123456789].csv", "data[!x]*", "*.*.*", "", "n*t*"] {
    print(`"${pattern}" ${files.filter(|file| matches(pattern, file))}`);
}
try { matches("a[bc", "ab") } catch (problem) { print(problem); }
print(matches("a*a*a*b", "aaaaaaaaaaaac"));
