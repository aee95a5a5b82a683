const A = 1;
print(A);
A = 2;
