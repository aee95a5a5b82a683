// the variable stands once in the literal, and is written over
let list = ();
for i in 0..5 { list = #{ item: i, next: list }; }
print(list.next.next.item);
let a = [1];
a = [a, 2, a.len()];
print(a);
a = [0, a];
print(a);
// it stands twice
a = [a, a];
print(a);
// a fault in another item leaves it as it was
try { a = [a, missing]; } catch (e) { print(a.len()); }
try { a = [1 / 0, a]; } catch (e) { print(a.len()); }
// shared, and constant
let b = [7];
let show = || b;
b = [b];
print(show.call());
const C = [3];
try { C = [C]; } catch (e) { print(C); }
// others keep what they were given
let c = [4];
let d = c;
c = [c];
print(d);
print(c);
