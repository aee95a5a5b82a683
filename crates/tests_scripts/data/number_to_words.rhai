// numbers in words, up to millions
fn below_thousand(number) {
    let small = ["", "one", "two", "three", "four", "five", "six", "seven", "eight", "nine", "ten", "eleven", "twelve",
        "thirteen", "fourteen", "fifteen", "sixteen", "seventeen", "eighteen", "nineteen"];
    let tens = ["", "", "twenty", "thirty", "forty", "fifty", "sixty", "seventy", "eighty", "ninety"];
    let words = [];
    if number >= 100 {
        words.push(small[number / 100] + " hundred");
        number %= 100;
        if number > 0 { words.push("and"); }
    }
    if number >= 20 {
        let text = tens[number / 10];
        if number % 10 > 0 { text += "-" + small[number % 10]; }
        words.push(text);
    } else if number > 0 {
        words.push(small[number]);
    }
    words
}

fn in_words(number) {
    if number == 0 { return "zero"; }
    if number < 0 { return "minus " + in_words(-number); }
    let words = [];
    for (scale, at) in [1_000_000, 1_000, 1] {
        let part = number / scale % 1_000;
        if part == 0 { continue; }
        if scale == 1 && part < 100 && !words.is_empty() { words.push("and"); }
        words.append(below_thousand(part));
        if scale > 1 { words.push(["million", "thousand"][at]); }
    }
    words.reduce(|text, word| if text == "" { word } else { text + " " + word }, "")
}

for number in [0, 7, 13, 20, 42, 100, 101, 999, 1000, 1001, 12345, 700000, 1000000, 987654321, -15] {
    print(`${number}: ${in_words(number)}`);
}
let letters = 0;
for number in 1..=100 {
    let text = in_words(number);
    text.remove(' ');
    text.remove('-');
    letters += text.len();
}
print(letters);
