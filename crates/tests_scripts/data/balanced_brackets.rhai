// whether brackets close in the order in which they open
fn check(text) {
    let partners = #{ ")": '(', "]": '[', "}": '{' };
    let open = [];
    for (letter, at) in text {
        if letter in "([{" {
            open.push(letter);
        } else if letter in ")]}" {
            let last = open.pop();
            if last != partners[letter.to_string()] { return `'${letter}' at ${at} closes nothing`; }
        }
    }
    if open.is_empty() { "balanced" } else { `${open.len()} left open, last '${open[-1]}'` }
}

let texts = ["", "()", "a(b[c]{d})e", "(]", ")(", "((", "[{()}](", "if (a[1]) { b(); }", "]"];
for text in texts { print(`"${text}" ${check(text)}`); }
let good = texts.filter(|text| check(text) == "balanced");
print(good.len());

fn deepest(text) {
    let depth = 0;
    let most = 0;
    for letter in text {
        switch letter {
            '(' | '[' | '{' => { depth += 1; most = max(most, depth); }
            ')' | ']' | '}' => depth -= 1
        }
    }
    most
}
print(good.map(|text| deepest(text)));
