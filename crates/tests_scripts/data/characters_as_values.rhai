// characters: compared, joined, counted and turned
let letter = 'm';
print(type_of(letter) + " " + letter + " " + letter.to_int());
print(letter.to_upper() + letter.to_lower() + 'x' + "y");
letter.make_upper();
print(letter);
print(['a' < 'b', 'Z' < 'a', 'a' == 'a', 'a' != 'b', '9' > '0']);
print(["abc"[1] == 'b', 'b' in "abc", ['a', 'b'].contains('b')]);
let text = "Hello, Wörld 42";
let kinds = #{ upper: 0, lower: 0, digit: 0, other: 0 };
for letter in text {
    if letter >= '0' && letter <= '9' { kinds.digit += 1; }
    else if letter.to_lower() != letter { kinds.upper += 1; }
    else if letter.to_upper() != letter { kinds.lower += 1; }
    else { kinds.other += 1; }
}
print(kinds);
let digits = 0;
for letter in "2026" { digits = digits * 10 + letter.to_int() - '0'.to_int(); }
print(digits + 1);
print("hello".to_chars().filter(|letter| letter > 'h'));
let swapped = "";
for letter in "MiXeD" { swapped += if letter == letter.to_upper() { letter.to_lower() } else { letter.to_upper() }; }
print(swapped);
let letters = "banana".to_chars();
letters.sort();
letters.dedup();
print(letters);
print(["é".len(), "é".bytes, 'é'.to_int(), 'λ'.to_upper().to_int()]);
let pattern = "ab";
pattern[1] = 'λ';
pattern += '!';
print(pattern);
print(switch 'q' { 'a' | 'e' => "vowel", 'q' => "odd one", _ => "consonant" });
print('a' + 'b' == "ab");
let alphabet = "abcdef";
print([0, 2, 4].map(|at| alphabet[at]));
