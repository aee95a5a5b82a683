let x = 1;
fn change(y) { y += 1; y }
print(change(x));
print(x);
fn outside() { x }
try { outside(); } catch (e) { print(e.message); print(e.line); print(e.position); }
fn both(a, b) { a - b }
print(both(5, 3));
fn both(a) { -a }
print(both(5));
