// cuts an expression into numbers, names and signs
fn is_digit(letter) { letter >= '0' && letter <= '9' }
fn is_letter(letter) { (letter >= 'a' && letter <= 'z') || letter == '_' }

fn tokenize(text) {
    let tokens = [];
    let position = 0;
    while position < text.len() {
        let letter = text[position];
        let start = position;
        if letter == ' ' {
            position += 1;
            continue;
        }
        let kind = if is_digit(letter) {
            while position < text.len() && is_digit(text[position]) { position += 1; }
            "number"
        } else if is_letter(letter) {
            while position < text.len() && (is_letter(text[position]) || is_digit(text[position])) { position += 1; }
            "name"
        } else if letter in "+-*/()=<>" {
            position += 1;
            if position < text.len() && text[position] == '=' { position += 1; }
            "sign"
        } else {
            throw `unexpected '${letter}' at ${position}`;
        };
        tokens.push(#{ kind: kind, text: text[start..position] });
    }
    tokens
}

for token in tokenize("total_1 = 3*(width + 120) <= x9") {
    print(`${token.kind} ${token.text}`);
}
print(tokenize("").len());
print(tokenize("12ab").map(|token| token.text));
try {
    tokenize("a + $b");
} catch (problem) {
    print(problem);
}
