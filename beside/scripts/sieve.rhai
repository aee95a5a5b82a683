let n = 1000000;
let a = [];
for i in 0..n { a.push(true); }
let count = 0;
for i in 2..n {
    if a[i] {
        count += 1;
        let j = i * 2;
        while j < n { a[j] = false; j += i; }
    }
}
print(count);
