// counts and draws them, lying and standing
fn repeated(letter, count) {
    let text = "";
    text.pad(count, letter);
    text
}

let throws = [3, 5, 2, 6, 5, 1, 5, 3, 2, 5, 4, 3];
let counts = [];
counts.pad(6, 0);
for value in throws { counts[value - 1] += 1; }
print(counts);

for (count, at) in counts { print(`${at + 1} |${repeated('#', count)} ${count}`); }

let highest = counts.reduce(|most, count| max(most, count), 0);
let level = highest;
while level > 0 {
    let line = "";
    for count in counts { line += if count >= level { " #" } else { "  " }; }
    print(line + " |");
    level -= 1;
}
print(" " + repeated('-', 11));

let letters = #{};
for letter in "histograms show how often" {
    if letter == ' ' { continue; }
    letters[letter.to_string()] = (letters[letter.to_string()] ?? 0) + 1;
}
let most = letters.filter(|letter, count| count > 2);
print(most);
