// a script's own `range` comes first, by its number of parameters
fn range(a, b, c) { [a + b, c] }
for i in range(7, 8, 9) { print(i); }
for i in range(2, 4) { print(i); }
for i in range(2..9, 5) { print(i); }
print(range(1, 2, 3));
