// breaks a text into lines of a width: left, right, centred, in block
fn wrapped(text, width) {
    let lines = [];
    let line = "";
    for word in text.split() {
        while word.len() > width {
            if line != "" { lines.push(line); line = ""; }
            lines.push(word.sub_string(0, width));
            word = word.sub_string(width);
        }
        if line != "" && line.len() + 1 + word.len() > width {
            lines.push(line);
            line = "";
        }
        if line != "" && word != "" { line += ' '; }
        line += word;
    }
    if line != "" { lines.push(line); }
    lines
}

fn blanks(count) { let text = ""; text.pad(count, ' '); text }
fn right(line, width) { blanks(width - line.len()) + line }
fn centred(line, width) { blanks((width - line.len()) / 2) + line }

fn in_block(line, width) {
    let words = line.split();
    let gaps = words.len() - 1;
    if gaps < 1 { return line; }
    let free = width - line.len();
    let text = words[0];
    for at in 1..=gaps {
        text += blanks(1 + free / gaps + if at <= free % gaps { 1 } else { 0 }) + words[at];
    }
    text
}

let text = "The quick brown fox jumps over   the lazy dog near extraordinarily wide rivers.";
let lines = wrapped(text, 14);
for line in lines { print(`|${line}`); }
for line in lines.extract(0, 3) { print(`|${right(line, 14)}|`); }
for line in lines.extract(0, 3) { print(`|${in_block(line, 14)}|`); }
print("|" + centred("fox", 14));
print(wrapped("", 5).len());
