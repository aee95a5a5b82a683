let n = 200;
let a = [];
let b = [];
let c = [];
for i in 0..n {
    let r = []; let s = []; let z = [];
    for j in 0..n { r.push(i + j); s.push(i - j); z.push(0); }
    a.push(r); b.push(s); c.push(z);
}
for i in 0..n {
    for j in 0..n {
        let t = 0;
        for k in 0..n { t += a[i][k] * b[k][j]; }
        c[i][j] = t;
    }
}
print(c[5][7]);
