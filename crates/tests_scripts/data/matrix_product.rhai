let a = [[1, 2], [3, 4]];
let b = [[5, 6], [7, 8]];
let c = [[0, 0], [0, 0]];
for i in 0..2 { for j in 0..2 { for k in 0..2 { c[i][j] += a[i][k] * b[k][j]; } } }
print(c);
