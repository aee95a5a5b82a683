let a = [];
for i in 0..300000 { a.push(i); }
let b = a.map(|x| x * 2);
let c = b.filter(|x| x % 3 == 0);
let s = c.reduce(|sum, x| sum + x, 0);
print(s);
