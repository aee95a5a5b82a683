print(type_of({ }));
print({ 1; 2 });
print({ 1; 2; });
print(type_of({ let x = 1; }));
print(if true { 1 } else { 2 });
print(type_of(if false { 1 }));
print(loop { break 7; });
print(type_of(while false { 1 }));
let n = 0;
print(while true { n += 1; if n == 3 { break n * 2; } });
print({ try { 5 } catch { 6 } });
print({ try { throw 1; } catch (e) { e + 1 } });
fn early(x) { if x > 0 { return "up"; } "down" }
print(early(1) + early(0));
fn none() { return; }
print(type_of(none()));
