// arrays through several functions
let numbers = [4, 8, 15, 16, 23, 42];
print(numbers.filter(|n| n % 2 == 0).map(|n| n / 2).reduce(|sum, n| sum + n, 0));
print(numbers.map(|n, at| n * at).filter(|n| n > 20));
print(numbers.zip(numbers.extract(1), |left, right| right - left));
print(numbers.some(|n| n > 40) && numbers.all(|n| n > 3));
print(numbers.find(|n| n > 10) + numbers.index_of(|n| n > 10));
print(numbers.find_map(|n| if n > 20 { `over: ${n}` }));
print(numbers.reduce_rev(|text, n| text + n + " ", ""));

let parts = numbers;
let tail = parts.split(4);
print(`${parts} ${tail}`);
tail.insert(1, 30);
tail.append(parts.extract(-2, 2));
print(tail);
print([tail.shift(), tail.pop(), tail.remove(1)]);
tail.pad(5, 0);
tail.chop(3);
print(tail);
tail.splice(1..2, ["new", "items"]);
print(tail);
print(numbers.drain(|n| n.is_odd) + numbers.retain(|n| n < 20));
print(numbers);
numbers.for_each(|at| this = this * 10 + at);
print(numbers);
numbers.reverse();
numbers.truncate(2);
print(numbers);
fn sum(items) { items.reduce(|total, item| total + item, 0) }
fn chunks(items, size) {
    let made = [];
    while !items.is_empty() {
        let rest = items.split(min(size, items.len()));
        made.push(items);
        items = rest;
    }
    made
}
print(chunks([1, 2, 3, 4, 5, 6, 7], 3).map(|chunk| sum(chunk)));
print([[3, 1], [2], []].reduce(|flat, list| flat + list, []));
print([1, 2, 3].map(|row| [1, 2, 3].map(|column| row * column)));
print([[1, 2], [3]].contains([3]) && [1, 2].index_of(5) == -1);
