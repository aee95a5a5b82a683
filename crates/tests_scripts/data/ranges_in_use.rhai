// ranges as values: asked, walked, and as parts of things
let inside = 2..5;
let closed = 2..=5;
print(`${inside} ${closed} ${type_of(inside)} ${type_of(closed)}`);
print([inside.start, inside.end, closed.end]);
print([inside.contains(5), closed.contains(5), 2 in inside, 1 in closed]);
print([inside.is_exclusive, closed.is_inclusive, (3..3).is_empty, (5..1).is_empty(), (1..=1).is_empty]);

let seen = [];
for number in inside { seen.push(number); }
for number in closed { seen.push(-number); }
for number in 5..1 { seen.push("never"); }
for number in -2..=0 { seen.push(number * 100); }
print(seen);

fn sum_of(range) { let sum = 0; for number in range { sum += number; } sum }
print(sum_of(1..=100) + sum_of(0..1) + sum_of(3..3));
let start = 3;
print(sum_of(start..start * 2));
print(sum_of(start - 1..=start + 1));

let text = "abcdefgh";
let bytes = "abcdefgh".to_blob();
let items = [0, 1, 2, 3, 4, 5, 6, 7];
print(`${text[inside]} ${text[closed]} ${text.sub_string(6..99)} ${text[0..0].len()}`);
print(bytes.extract(inside).as_string());
print(items.extract(inside));
print(items.drain(closed));
print(items);
print((0b110100)[inside]);
let ranges = [0..2, 4..=5];
for range in ranges { print(text[range]); }
let holder = #{ area: 1..4 };
print(text[holder.area] + holder.area.start);
