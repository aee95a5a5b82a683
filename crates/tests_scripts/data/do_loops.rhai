let i = 0;
do { i += 1; print(i) } while i < 3;
do { i -= 1 } until i == 0;
print(i);
// once, whatever the condition is
do { print("once") } while false;
do { print("once") } until true;
// its value, and the ways out
let v = do { i += 1; if i == 4 { break i * 10 } } while true;
print(v);
print(do { } until true);
let odd = [];
let n = 0;
do {
    n += 1;
    if n % 2 == 0 { continue; }
    odd.push(n);
} until n >= 7;
print(odd);
// the condition sees no variable of the body
try { do { let inside = true; } while inside } catch (e) { print(e.line) }
try { do { } while 1 } catch (e) { print(e.position) }
fn first(a) { let k = 0; do { if a[k] > 9 { return k } k += 1 } while k < a.len(); -1 }
print(first([3, 12, 4]));
print(first([3]));
