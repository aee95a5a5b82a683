// how many letters to change, drop or add between two texts
fn distance(left, right) {
    let before = [];
    for at in 0..=right.len() { before.push(at); }
    for (one, row) in left {
        let line = [row + 1];
        for (two, column) in right {
            let changed = before[column] + if one == two { 0 } else { 1 };
            line.push(min(changed, min(before[column + 1], line[column]) + 1));
        }
        before = line;
    }
    before[-1]
}

fn closest(word, known) {
    let best = ();
    let least = 1000;
    for other in known {
        let found = distance(word, other);
        if found < least {
            least = found;
            best = other;
        }
    }
    if least > 2 { "no idea" } else { `${best} (${least})` }
}

let pairs = [["kitten", "sitting"], ["flaw", "lawn"], ["", "abc"], ["same", "same"], ["sunday", "saturday"], ["naïve", "naive"]];
for pair in pairs { print(`${pair[0]} ${pair[1]}: ${distance(pair[0], pair[1])}`); }
let known = ["print", "return", "while", "switch", "throw"];
for word in ["pirnt", "retrun", "whale", "swich", "through", "xyz"] { print(`${word}: ${closest(word, known)}`); }
print(distance("abcdef", "fedcba") == distance("fedcba", "abcdef"));
