let total = 0;
let add = |x| { total += x; };
for i in 0..1000000 { add.call(i); }
print(total);
