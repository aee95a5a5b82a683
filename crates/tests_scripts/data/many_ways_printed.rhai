// each round has two functions, which both share those of the round before
let x = 1;
let a = || x;
let b = || x;
print(a == b);
for i in 0..60 {
    let c = a;
    let d = b;
    a = || { c; d };
    b = || { c; d };
}
debug([a]);
