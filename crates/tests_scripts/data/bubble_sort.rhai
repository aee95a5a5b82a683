let a = [5, 2, 9, 1, 7, 3];
let n = a.len();
for i in 0..n {
    for j in 0..n - 1 - i {
        if a[j] > a[j + 1] {
            let t = a[j];
            a[j] = a[j + 1];
            a[j + 1] = t;
        }
    }
}
print(a);
