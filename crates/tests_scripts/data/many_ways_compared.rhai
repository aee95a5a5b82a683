let x = 1;
let a = || x;
let b = || x;
for i in 0..60 {
    let c = a;
    let d = b;
    a = || { c; d };
    b = || { c; d };
}
print(type_of(a));
try { print([1, a].contains(b)); } catch { print("never"); }
