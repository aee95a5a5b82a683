print([1, 2, 3].map(|| this * 2));
print([1, 2, 3, 4].filter(|| this % 2 == 0));
print([1, 2].all(|| this > 0));
print([1, 2].some(|| this > 1));
print([1, 2, 3].reduce(|sum| (sum ?? 0) + this));
let a = [1, 2, 3];
a.all(|| { this += 10; true });
print(a);
let m = #{ l: [1] };
m.l.some(|| { this = 5; false });
print(m.l);
print([1, 2].map(|x, i| x * i));
fn twice() { this * 2 }
print([4].map(Fn("twice")));
fn int.kind() { "int" }
fn string.kind() { "text" }
fn kind() { "other" }
print([1, "a", ()].map(Fn("kind")));
let n = 100;
print([1, 2].map(|| this + n));
a.map(|| { this = 0; });
print(a);
print([[1], [2]].filter(|| { this.push(0); this.len() > 1 }));
