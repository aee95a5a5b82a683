let n = 50000;
let a = [];
let seed = 42;
for i in 0..n {
    seed = (seed * 1103515245 + 12345) % 2147483648;
    a.push(seed);
}
let gap = n / 2;
while gap > 0 {
    for i in gap..n {
        let v = a[i];
        let j = i;
        while j >= gap && a[j - gap] > v {
            a[j] = a[j - gap];
            j -= gap;
        }
        a[j] = v;
    }
    gap /= 2;
}
print(a[0]);
print(a[9999]);
print(a[49999]);
