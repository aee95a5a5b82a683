// `in` and `!in` for arrays, maps, texts, ranges and bytes
print(3 in [1, 2, 3]);
print("3" in [1, 2, 3]);
print([2] in [[1], [2]]);
print(() in [1, ()]);
print('c' in "abc");
print("bc" in "abc");
print("" in "abc");
print("key" in #{ key: () });
print("value" in #{ key: "value" });
print(5 in 1..5);
print(5 in 1..=5);
print(-1 !in 0..10);
print(7 in blob(2, 7));
print(!("x" in ["x"]));
print("x" !in ["y"] && 2 in [2]);
print(1 + 1 in [2]);
print(1 in [1] == true);

let vowels = "aeiou";
let count = 0;
for letter in "membership" { if letter in vowels { count += 1; } }
print(count);
let allowed = ["read", "write"];
let asked = ["read", "erase", "write", "burn"];
print(asked.filter(|right| right !in allowed));
let seen = #{};
let twice = [];
for word in "a b a c b a".split() {
    if word in seen && word !in twice { twice.push(word); }
    seen[word] = true;
}
print(twice);
let index = 0;
while index in 0..3 { index += 1; }
print(index);
