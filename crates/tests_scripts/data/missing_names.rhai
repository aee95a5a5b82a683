let made = 0;
try { let f = || nowhere + 1; made = 1; } catch (e) { print(e.message); print(e.line); print(e.position); }
print(made);
try { let f = |x| { let g = || x + deep; g }; made = 2; } catch (e) { print(e.message); print(e.position); }
print(made);
let here = 1;
let f = || here + 1;
print(f.call());
