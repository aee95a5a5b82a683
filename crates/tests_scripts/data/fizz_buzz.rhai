// FizzBuzz in four ways
fn by_if(number) {
    if number % 15 == 0 { "FizzBuzz" } else if number % 5 == 0 { "Buzz" } else if number % 3 == 0 { "Fizz" } else { number.to_string() }
}

fn by_text(number) {
    let text = "";
    if number % 3 == 0 { text += "Fizz"; }
    if number % 5 == 0 { text += "Buzz"; }
    if text.is_empty() { `${number}` } else { text }
}

fn by_switch(number) {
    switch number % 15 {
        0 => "FizzBuzz",
        5 | 10 => "Buzz",
        3 | 6 | 9 | 12 => "Fizz",
        _ => number.to_string()
    }
}

let rules = [[3, "Fizz"], [5, "Buzz"], [7, "Bang"]];
let by_rules = |number| {
    let text = rules.filter(|rule| number % rule[0] == 0).reduce(|all, rule| all + rule[1], "");
    if text == "" { number.to_string() } else { text }
};

for number in 1..=15 { print(by_if(number)); }
let same = true;
for number in 1..=100 {
    if by_if(number) != by_text(number) || by_text(number) != by_switch(number) { same = false; }
}
print(same);
print([7, 21, 35, 105, 8].map(|number| by_rules.call(number)));
rules.retain(|rule| rule[0] != 3);
print(by_rules.call(105));
