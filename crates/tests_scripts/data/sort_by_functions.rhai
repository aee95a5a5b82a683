// sorts by functions: downwards, by fields, by several measures, stably
let numbers = [5, -3, 9, 0, -8, 2];
numbers.sort(|left, right| left - right);
print(numbers);
numbers.sort(|left, right| right - left);
print(numbers);
numbers.sort(|left, right| left.abs() - right.abs());
print(numbers);

fn by_text(left, right) { if left < right { -1 } else if left > right { 1 } else { 0 } }
fn by_length(left, right) { left.len() - right.len() }
let words = ["pear", "fig", "apple", "kiwi", "date", "yam"];
words.sort(Fn("by_length"));
print(words);
words.sort(Fn("by_text"));
print(words);
words.sort(|left, right| {
    let order = by_length(right, left);
    if order == 0 { by_text(left, right) } else { order }
});
print(words);

let people = [#{ name: "Cid", age: 30 }, #{ name: "Ann", age: 25 }, #{ name: "Bob", age: 30 }, #{ name: "Dan", age: 25 }];
people.sort(|left, right| left.age - right.age);
print(people.map(|person| person.name));
people.sort(|left, right| by_text(left.name, right.name));
print(people.map(|person| person.name));

let order = ["low", "middle", "high"];
let levels = ["high", "low", "middle", "low"];
levels.sort(|left, right| order.index_of(left) - order.index_of(right));
print(levels);
let parts = #{ z: 1, y: 3, x: 2 };
let keys = parts.keys();
keys.sort(|left, right| parts[right] - parts[left]);
print(keys);
let letters = "sorting".to_chars();
letters.sort();
print(letters.reduce(|text, letter| text + letter, ""));
let texts = ["b", "B", "a", "10", "9", ""];
texts.sort();
print(texts);
let same = [[1, "a"], [0, "b"], [1, "c"], [0, "d"]];
same.sort(|left, right| left[0] - right[0]);
print(same);
