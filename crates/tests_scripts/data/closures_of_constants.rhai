const C = 5;
let f = || C + 1;
print(f.call());
let g = || { C = 6 };
g.call();
