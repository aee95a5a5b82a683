// run-length coding of texts, there and back
fn encode(text) {
    let runs = [];
    for letter in text {
        if !runs.is_empty() && runs[-1].letter == letter {
            runs[-1].count += 1;
        } else {
            runs.push(#{ letter: letter, count: 1 });
        }
    }
    runs
}

fn written(runs) {
    runs.reduce(|text, run| text + (if run.count > 1 { run.count.to_string() } else { "" }) + run.letter, "")
}

fn decode(code) {
    let text = "";
    let count = 0;
    for letter in code {
        if letter in "0123456789" {
            count = count * 10 + letter.to_int() - '0'.to_int();
        } else {
            text.pad(text.len() + max(count, 1), letter);
            count = 0;
        }
    }
    text
}

let texts = ["WWWWBWWWBBBBBBBBBBBBC", "abc", "", "zzzzzzzzzz"];
for text in texts {
    let code = written(encode(text));
    print(`${text} -> ${code} -> ${decode(code) == text}`);
}
print(encode("aab"));
print(decode("3x12yz"));
print(encode("mississippi").filter(|run| run.count == 2).len());
