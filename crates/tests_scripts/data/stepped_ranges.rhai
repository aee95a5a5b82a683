// `range` with a step
let found = [];
for i in range(0, 10, 2) { found.push(i); }
print(found);
for i in range(10, 0, -4) { print(i); }
for (i, number) in range(-3, 3, 3) { print(`${number}: ${i}`); }
for i in range(1..8, 3) { print(i); }
for i in range(3, 5) { print(i); }
for (i, number) in range(3, 5) { print(i * 10 + number); }

// no ints in this direction
for i in range(5, 5, 1) { print("never"); }
for i in range(5, 9, -1) { print("never"); }
for i in range(9, 5, 1) { print("never"); }

// `break`, `continue`, and a variable that is shared
let rounds = [];
let last = ();
for i in range(0, 100, 7) {
    if i == 14 { continue; }
    if i > 30 { break; }
    rounds.push(i);
    last = || i;
}
print(rounds);
print(last.call());

// the ends of ints
for i in range(9223372036854775800, 9223372036854775807, 5) { print(i); }
for i in range(-9223372036854775800, -9223372036854775807 - 1, -5) { print(i); }

// errors
fn tried(action) { try { action.call() } catch (problem) { print(problem.message) } }
tried(|| for i in range(0, 5, 0) { print(i); });
tried(|| for i in range(0..=5, 2) { print(i); });
tried(|| for i in range(0, 5, "x") { print(i); });
tried(|| for i in range("a", 5) { print(i); });
tried(|| { let steps = range(0, 5, 2); });
