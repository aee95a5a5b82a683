// roman numerals, written and read
fn to_roman(number) {
    let signs = [
        [1000, "M"], [900, "CM"], [500, "D"], [400, "CD"], [100, "C"], [90, "XC"],
        [50, "L"], [40, "XL"], [10, "X"], [9, "IX"], [5, "V"], [4, "IV"], [1, "I"]
    ];
    let text = "";
    for pair in signs {
        while number >= pair[0] {
            text += pair[1];
            number -= pair[0];
        }
    }
    text
}

fn from_roman(text) {
    let values = #{ I: 1, V: 5, X: 10, L: 50, C: 100, D: 500, M: 1000 };
    let total = 0;
    let before = 0;
    for letter in text.split("").filter(|part| part != "") {
        let value = values[letter] ?? throw_unknown(letter);
        total += value;
        if before < value { total -= 2 * before; }
        before = value;
    }
    total
}

fn throw_unknown(letter) { throw `no numeral: ${letter}`; }

for number in [1, 4, 9, 14, 40, 90, 400, 1066, 1994, 2024, 3999] {
    print(`${number} ${to_roman(number)}`);
}
print(from_roman("MCMXCIV") + from_roman("IX"));
let wrong = 0;
for number in 1..=200 {
    if from_roman(to_roman(number)) != number { wrong += 1; }
}
print(wrong);
try { from_roman("MCQ"); } catch (problem) { print(problem); }
