// numbers that describe the ones before, and other sequences
fn next_said(text) {
    let said = "";
    let count = 0;
    for (letter, at) in text {
        count += 1;
        if at + 1 == text.len() || text[at + 1] != letter {
            said += `${count}${letter}`;
            count = 0;
        }
    }
    said
}

fn sequence(first, step, count) {
    let items = [first];
    while items.len() < count { items.push(step.call(items[-1], items)); }
    items
}

for text in sequence("1", |text, all| next_said(text), 7) { print(text); }
print(sequence(1, |number, all| number * 3, 8));
print(sequence(0, |number, all| {
    // Recamán: back if that is free, else on
    let back = number - all.len();
    if back > 0 && back !in all { back } else { number + all.len() }
}, 16));
print(sequence(1, |number, all| if all.len() > 1 { number + all[-2] } else { 1 }, 12));
print(sequence(3, |number, all| if number % 2 == 0 { number / 2 } else { number * 3 + 1 }, 8));
print(sequence("a", |text, all| {
    let grown = "";
    for letter in text { grown += if letter == 'a' { "ab" } else { "a" }; }
    grown
}, 6));
let lengths = sequence("1", |text, all| next_said(text), 12).map(|text| text.len());
print(lengths);
