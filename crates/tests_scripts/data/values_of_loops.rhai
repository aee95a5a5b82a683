// what loops give, and how they end
let number = 0;
let power = loop {
    number += 1;
    if 2 ** number > 1000 { break number; }
};
print(power);
let found = while number > 0 {
    if number % 7 == 0 { break `seven divides ${number}`; }
    number -= 1;
};
print(found);
print(type_of(while number > 100 { break 1; }));
let first = for word in ["tree", "sky", "river"] {
    if word.len() == 3 { break word; }
};
print(first);
print(for number in 0..3 { if number > 5 { break number; } } ?? "ran to its end");
print(do { number += 10; if number > 30 { break number; } } while true);

let pairs = [];
for left in 1..4 {
    for right in 1..4 {
        if right == left { continue; }
        if left + right > 4 { break; }
        pairs.push(left * 10 + right);
    }
}
print(pairs);

let outer = 0;
let ended = loop {
    outer += 1;
    let inner = loop { if outer >= 3 { break true; } break false; };
    if inner { break; }
};
print(type_of(ended));
print(outer);
let rounds = [];
let at = 5;
until_zero(at);
fn until_zero(at) { while at > 0 { at -= 1; } }
do { at -= 2; rounds.push(at); } until at <= 0;
print(rounds);
let grid = [[1, 2], [3, 4], [5, 6]];
let place = { let place = (); for (row, down) in grid { for (value, across) in row { if value == 4 { place = [down, across]; } } } place };
print(place);
