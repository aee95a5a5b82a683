let a = [1, 1, 2, 2, 1, [3], [3]];
a.dedup();
print(a);
let b = [5, 3, 8, 1, 3];
b.sort();
print(b);
b.dedup();
print(b);
let texts = ["pear", "apple", "fig"];
texts.sort();
for text in texts { print(text); }
let letters = ['z', 'b', 'y'];
sort(letters);
print(letters[0]);
for mixed in [[1, "a"], [true, false], [[1], [2]], [#{}, #{}]] {
    try { mixed.sort(); print("sorted"); } catch (e) { print("refused"); }
}
[].sort();
b.sort(|x, y| y - x);
print(b);
