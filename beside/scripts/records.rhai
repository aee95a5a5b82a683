let a = [];
for i in 0..10 { a.push(#{ f: [0, 0, 0, 0], g: i }); }
let n = 0;
while n < 1000000 {
    a[n % 10].f[n % 4] += 1;
    n += 1;
}
print(a[3].f[1]);
