// ciphers that move letters, and one with a word as its key
fn moved(letter, distance) {
    let small = "abcdefghijklmnopqrstuvwxyz";
    let large = small.to_upper();
    for alphabet in [small, large] {
        let at = alphabet.index_of(letter);
        if at >= 0 { return alphabet[(at + distance + 26) % 26]; }
    }
    letter
}

fn caesar(text, distance) {
    let coded = "";
    for letter in text { coded += moved(letter, distance); }
    coded
}

fn with_key(text, key, direction) {
    let coded = "";
    let used = 0;
    for letter in text {
        let distance = key[used % key.len()].to_int() - 'a'.to_int();
        let next = moved(letter, distance * direction);
        if letter.to_lower() in "abcdefghijklmnopqrstuvwxyz" { used += 1; }
        coded += next;
    }
    coded
}

let text = "The quick brown Fox, 3 dogs & Zebra!";
let coded = caesar(text, 3);
print(coded);
print(caesar(coded, -3) == text);
print(caesar(caesar(text, 13), 13) == text);
print(caesar("Hal", 1));

let secret = with_key("Attack at dawn", "lemon", 1);
print(secret);
print(with_key(secret, "lemon", -1));

for distance in 0..26 {
    let tried = caesar("WKLV LV D WHVW", -distance);
    if tried.contains("THIS") { print(`${distance}: ${tried}`); }
}
