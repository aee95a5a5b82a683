let n = 0;
let i = 0;
while i < 20000 {
    let x = i;
    let f = || x + 1;
    n += f.call() - x;
    i += 1;
}
print(n);
