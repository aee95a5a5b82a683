// counts letters of kinds in a text
fn kind_of(letter) {
    switch letter.to_lower() {
        'a' | 'e' | 'i' | 'o' | 'u' => "vowel",
        ' ' | '\t' | '\n' => "blank",
        '0' | '1' | '2' | '3' | '4' | '5' | '6' | '7' | '8' | '9' => "digit",
        'b' | 'c' | 'd' | 'f' | 'g' | 'h' | 'j' | 'k' | 'l' | 'm' | 'n' | 'p' | 'q' | 'r' | 's' | 't' | 'v' | 'w' | 'x' | 'y' | 'z' => "consonant",
        _ => "other"
    }
}

let text = "Hello World, this is 2026!\nA new\tline, at 10:45.";
let counts = #{};
for letter in text {
    let kind = kind_of(letter);
    counts[kind] = (counts[kind] ?? 0) + 1;
}
print(counts);
print(counts.values().reduce(|sum, count| sum + count, 0) == text.len());

let vowels = #{};
for letter in text.to_lower().to_chars().filter(|letter| kind_of(letter) == "vowel") {
    let key = "" + letter;
    if key in vowels { vowels[key] += 1; } else { vowels[key] = 1; }
}
print(vowels);

let most = vowels.keys().reduce(|best, key| if best == () || vowels[key] > vowels[best] { key } else { best });
print(most);
let words = text.split().map(|word| `${word}:${word.to_chars().filter(|letter| kind_of(letter) == "vowel").len()}`);
print(words);
let shouted = "";
for letter in "quiet words" { shouted += if kind_of(letter) == "vowel" { letter.to_upper() } else { letter }; }
print(shouted);
