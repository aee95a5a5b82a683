// a tax by brackets, and what a further pound costs
const BRACKETS = [[12_570, 0], [50_270, 20], [125_140, 40], [(), 45]];

fn tax(income, brackets) {
    let sum = 0;
    let below = 0;
    for bracket in brackets {
        let top = bracket[0] ?? income;
        if income <= below { break; }
        sum += (min(income, top) - below) * bracket[1];
        below = top;
    }
    sum / 100
}

fn rate_at(income, brackets) {
    for bracket in brackets { if bracket[0] == () || income < bracket[0] { return bracket[1]; } }
}

fn grouped(number) {
    let text = number.to_string();
    let parts = "";
    while text.len() > 3 {
        parts = "," + text.sub_string(-3) + parts;
        text.truncate(text.len() - 3);
    }
    text + parts
}

for income in [0, 12_570, 12_571, 20_000, 50_270, 60_000, 125_140, 1_000_000] {
    let due = tax(income, BRACKETS);
    let share = if income == 0 { 0 } else { due * 1000 / income };
    print(`${grouped(income)}: ${grouped(due)} (${share / 10}.${share % 10}%), next at ${rate_at(income, BRACKETS)}%`);
}
let low = 0;
let high = 200_000;
while low < high {
    let middle = (low + high) / 2;
    if middle - tax(middle, BRACKETS) < 40_000 { low = middle + 1; } else { high = middle; }
}
print(`40,000 is left of ${grouped(low)}`);
