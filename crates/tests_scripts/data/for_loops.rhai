for x in 0..3 { print(x); }
for (x, i) in ["a", "b"] { print(x + i); }
for c in "h\u00e9" { print(c); }
for x in 2..=3 { if x == 2 { continue; } print(x); }
print(for x in 0..9 { if x == 4 { break x; } });
let fs = [];
for x in 0..3 { fs.push(|| x); }
print(fs[0].call() + fs[2].call());
for x in 5..1 { print("never"); }
for x in 5 { }
