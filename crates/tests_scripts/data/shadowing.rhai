let x = 1;
let x = x + 1;
{ let x = x * 10; print(x); }
print(x);
if true { let x = 5; x += 1; }
print(x);
