let a = [1, 2, 3, 4, 5];
a.splice(1, 2, [7, 8, 9]);
print(a);
a.splice(-1, 1, []);
print(a);
a.splice(10, 3, [6]);
print(a);
a.splice(1..3, [0]);
print(a);
a.splice(0..=1, [2]);
print(a);
a.splice(1, 100, []);
print(a);
let m = #{ list: [1, 2, 3] };
m.list.splice(0, 2, [[9], [8]]);
print(m.list);
try { a.splice(0, 1, 2) } catch (e) { print(e.line) }
