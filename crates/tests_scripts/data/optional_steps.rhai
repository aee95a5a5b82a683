let a = ();
print(a?.b == ());
print(a?.b.c.d == ());
print(a?[1][2] == ());
let m = #{ x: #{ y: [1, 2] } };
print(m?.x?.y?[1]);
print(m.z?.y == ());
print(m.z?.y.push(1) == ());
m?.x?.y.push(3);
print(m);
m.x?.y?.push(4);
print(m.x.y.len());
fn none() { () }
print(none()?.len() == ());
print([1, ()][1]?.foo(2) == ());
let counted = 0;
let count = || { counted += 1; counted };
a?.f(count.call());
print(counted);
print(a?.b ?? 7);
let holder = #{ inner: () };
let look = || holder.inner?.deep ?? "nothing";
print(look.call());
holder.inner = #{ deep: "value" };
print(look.call());
try { a.b } catch { print("caught") }
