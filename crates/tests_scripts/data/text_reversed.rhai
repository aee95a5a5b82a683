let s = "stressed";
let r = s;
for i in 0..s.len() { r[i] = s[-1 - i]; }
print(r);
