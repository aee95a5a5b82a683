// `return` out of loops, switches, catches and closures
fn find_pair(numbers, sum) {
    for (left, at) in numbers {
        for right in numbers.extract(at + 1) {
            if left + right == sum { return [left, right]; }
        }
    }
    "none"
}
print(find_pair([1, 4, 6, 9], 13));
print(find_pair([1, 2], 9));

fn nothing() { return; }
fn no_value() { let x = 1; }
fn last_is_assignment() { let x = 1; x = 2 }
print(type_of(nothing()) + type_of(no_value()) + type_of(last_is_assignment()));

fn classify(value) {
    if type_of(value) != "i64" { return "no int"; }
    switch value {
        0 => return "zero",
        1..10 => { if value == 5 { return "five"; } "digit" }
        _ => { let size = value.to_string().len(); `${size} digits` }
    }
}
print(["x", 0, 5, 7, 1234].map(|value| classify(value)));

fn with_catch(value) {
    try {
        if value == 1 { return "from try"; }
        throw "thrown";
    } catch (problem) {
        if value == 2 { return "from catch: " + problem; }
    }
    "behind"
}
for value in 1..=3 { print(with_catch(value)); }

let check = |number| {
    if number < 0 { return "negative"; }
    while number > 0 { number -= 3; if number == 1 { return "hit"; } }
    "miss"
};
print([-1, 4, 6].map(check));
fn nested(level) { let inner = |n| { return n * 10; }; let got = inner.call(level); return got + 1; }
print(nested(4));
fn both(flag) { return if flag { "yes" } else { "no" }; }
print(both(true) + both(false));
fn looped() { loop { loop { return "out of both"; } } }
print(looped());
fn in_block() { let x = { if true { return "left early"; } 5 }; x }
print(in_block());
