// a function that remembers, with the calls counted
let calls = 0;
let memory = #{};
let slow = |n| {
    calls += 1;
    n * n + 1
};
let remembered = |n| {
    let key = n.to_string();
    if key !in memory { memory[key] = slow.call(n); }
    memory[key]
};
print([3, 4, 3, 3, 4, 5].map(|n| remembered.call(n)));
print(calls);
print(memory);

fn fibonacci(n) {
    // `this` is the memory
    let key = `f${n}`;
    if key in this { return this[key]; }
    let value = if n < 2 { n } else { this.fibonacci(n - 1) + this.fibonacci(n - 2) };
    this[key] = value;
    value
}

let known = #{};
print(known.fibonacci(50));
print(known.len());
print(known.f20);
print(known.fibonacci(90));
print(known.len());

let table = [0, 1];
while table[-1] < 1000 { table.push(table[-1] + table[-2]); }
print(table);
print(table.find(|value| value > 100));
