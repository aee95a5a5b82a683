let a = [1, 2, 3];
a.for_each(|| this *= 10);
print(a);
a.for_each(|i| this += i);
print(a);
let sum = 0;
a.for_each(|| sum += this);
print(sum);
let m = #{ l: [[1], [2]] };
m.l.for_each(|| this.push(0));
print(m);
print([1, 2].find(|| this > 1));
print([5, 6].index_of(|| this == 6));
print([3, 4].reduce_rev(|acc| (acc ?? 0) * 10 + this));
print(#{ a: 1, b: 2 }.filter(|k| this > 1));
let d = [1, 2, 3, 4];
print(d.drain(|| this % 2 == 0));
print(d);
fn int.show(i) { print(`${i}: ${this}`) }
[7, 8].for_each(Fn("show"));
try { [1].for_each(|a, b| a) } catch { print("two parameters are none") }
let e = [1, 2];
print(e.find(|| { this += 1; this > 2 }));
print(e);
const FIXED = [1];
FIXED.for_each(|| sum += this);
print(sum);
let length = Fn("len");
print(length.call("four"));
