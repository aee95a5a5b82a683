let a = [1, 2, 3];
print(a.extract(1..3));
a[0..1];
