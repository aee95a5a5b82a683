// `for` with the number of the round
for (word, at) in ["zero", "one", "two"] { print(`${at} ${word}`); }
for (number, at) in 5..8 { print(number - at); }
for (letter, at) in "héé!" { if at > 1 { print(`${letter}${at}`); } }
for (item, at) in [] { print("never"); }

let items = [10, 20, 30];
for (item, at) in items {
    items[at] = item + at;
    if at == 0 { items.push(99); }
}
print(items);

let skipped = [];
for (item, at) in ['a', 'b', 'c', 'd'] {
    if at.is_odd { continue; }
    skipped.push(item);
    if at == 2 { break; }
}
print(skipped);

let item = "outer";
let at = 100;
for (item, at) in [1] { at += item; print(at); }
print(`${item} ${at}`);

let pairs = [];
for (left, row) in ["x", "y"] {
    for (right, column) in 1..=2 { pairs.push(`${left}${right}@${row}${column}`); }
}
print(pairs);
let keys = #{ b: 2, a: 1, c: 3 }.keys();
for (key, at) in keys { keys[at] = `${at}${key}`; }
print(keys);
let sum = 0;
for (value, at) in [5, 6, 7].map(|number| number * 10) { sum += value * at; }
print(sum);
