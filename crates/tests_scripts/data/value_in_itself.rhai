let a = [1];
let f = || a;
a.push(f);
print(a[0]);
print(type_of(a[1]));
a = [];
print("done");
