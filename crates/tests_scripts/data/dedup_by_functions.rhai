// drops repeated neighbours, by equality or by a function
let numbers = [1, 1, 2, 2, 2, 3, 1, 1];
numbers.dedup();
print(numbers);
let words = ["a", "A", "b", "B", "b", "c", "a"];
words.dedup(|left, right| left.to_lower() == right.to_lower());
print(words);
let rising = [1, 5, 3, 6, 2, 9, 9];
rising.dedup(|before, item| item <= before);
print(rising);
let near = [10, 12, 13, 20, 21, 40];
near.dedup(|kept, item| item - kept < 5);
print(near);

fn same_sign(left, right) { left.sign() == right.sign() }
let signs = [3, 4, -1, -9, 0, 0, 5];
signs.dedup(Fn("same_sign"));
print(signs);

let mixed = [1, "1", 'x', 1, (), (), true, true, [1], [1], #{ a: 1 }, #{ a: 1 }];
mixed.dedup();
print(mixed);
let empty = [];
empty.dedup(|left, right| true);
print(empty);
let all = [1, 2, 3];
all.dedup(|left, right| true);
print(all);

fn unique(items) {
    let kept = [];
    for item in items { if item !in kept { kept.push(item); } }
    kept
}
print(unique([3, 1, 3, 2, 1]));
let sorted = [3, 1, 3, 2, 1];
sorted.sort();
sorted.dedup();
print(sorted);
let calls = 0;
let counted = [1, 1, 2, 3];
counted.dedup(|left, right| { calls += 1; left == right });
print(`${counted} after ${calls}`);
