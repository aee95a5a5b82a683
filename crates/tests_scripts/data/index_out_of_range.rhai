let a = [1, 2];
print(a[-2]);
let b = a[ 2];
