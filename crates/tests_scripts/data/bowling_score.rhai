// the score of a game of bowling, frame by frame
fn parse(text) {
    let throws = [];
    for letter in text {
        switch letter {
            'X' => throws.push(10),
            '/' => throws.push(10 - throws[-1]),
            '-' => throws.push(0),
            ' ' => (),
            _ => throws.push(letter.to_int() - 48)
        }
    }
    throws
}

fn frames(throws) {
    let at = 0;
    let totals = [];
    let total = 0;
    for frame in 1..=10 {
        let first = throws[at];
        let second = throws.get(at + 1) ?? 0;
        let third = throws.get(at + 2) ?? 0;
        let sum = first + second;
        if first == 10 {
            total += sum + third;
            at += 1;
        } else {
            total += if sum == 10 { sum + third } else { sum };
            at += 2;
        }
        totals.push(total);
    }
    totals
}

let games = ["X X X X X X X X X X X X", "9- 9- 9- 9- 9- 9- 9- 9- 9- 9-", "5/ 5/ 5/ 5/ 5/ 5/ 5/ 5/ 5/ 5/5", "X 7/ 9- X -8 8/ -6 X X X81"];
for game in games {
    let totals = frames(parse(game));
    print(`${totals[-1]}: ${totals}`);
}
try {
    frames(parse("X 1"));
} catch (problem) {
    print(problem.message.contains("index"));
}
