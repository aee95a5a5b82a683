// turns sums into postfix by a stack of signs, and evaluates them
fn rank(sign) {
    switch sign {
        "+" | "-" => 1,
        "*" | "/" | "%" => 2,
        "^" => 3,
        _ => 0
    }
}

fn to_postfix(text) {
    let output = [];
    let signs = [];
    for word in text.split(' ') {
        if word == "(" {
            signs.push(word);
        } else if word == ")" {
            while signs[-1] != "(" { output.push(signs.pop()); }
            signs.pop();
        } else if rank(word) > 0 {
            while !signs.is_empty() && (rank(signs[-1]) > rank(word) || (rank(signs[-1]) == rank(word) && word != "^")) {
                output.push(signs.pop());
            }
            signs.push(word);
        } else {
            output.push(word);
        }
    }
    while !signs.is_empty() { output.push(signs.pop()); }
    output
}

fn evaluate(words) {
    let stack = [];
    for word in words {
        if rank(word) == 0 { stack.push(word.parse_int()); continue; }
        let right = stack.pop();
        let left = stack.pop();
        stack.push(switch word {
            "+" => left + right, "-" => left - right, "*" => left * right,
            "/" => left / right, "%" => left % right, "^" => left ** right
        });
    }
    stack[0]
}

for text in ["1 + 2 * 3", "( 1 + 2 ) * 3", "10 - 4 - 3", "2 ^ 3 ^ 2", "100 / 7 % 5 + 1", "( ( 2 + 3 ) * ( 8 - 6 ) ) ^ 2"] {
    let words = to_postfix(text);
    print(words.reduce(|line, word| line + word + " ", "") + "= " + evaluate(words));
}
