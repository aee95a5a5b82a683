// rounds of which all statements are done at once, and others
let total = 0;
for i in 0..5 {
    if i % 2 == 0 { total += i; } else if i == 3 { total *= 10; }
    total += 1;
}
print(total);
let log = [];
let i = 0;
while i < 6 {
    if i > 1 {
        if i < 4 {
            log.push(i);
            total = i;
        }
        total += 1;
    }
    i += 1;
}
print(log);
print(total);
// ways out
i = 0;
let seen = 0;
while true {
    i += 1;
    if i == 3 { continue }
    if i > 5 { if seen > 0 { break } }
    seen += i;
}
print(seen);
print(while i > 0 { i -= 1; });
print(i);
fn find(a, x) { for (y, k) in a { if y == x { return k } } -1 }
print(find([4, 5, 6], 6));
print(find(["a"], "b"));
i = 7;
loop { i -= 1; if i % 4 == 0 { break } }
print(i);
// variables of a round
let fs = [];
for k in [1, "x", 3] { let own = k; fs.push(|| own); own = own; }
print(fs[0].call() + fs[2].call());
print(fs[1].call());
for k in 0..2 { const K = k; let v = K + 1; try { K = v } catch (e) { print(e.message) } }
for k in 0..2 { { const K = 1; } { let v = 5; v += k; print(v); } }
for k in 0..3 { k += 10; total = k; }
print(total);
let end = 3;
for k in 0..end { end = 1; total = k; }
print(total);
let list = [1, 2, 3];
for x in list { list.push(x); total = x; }
print(list.len() + total);
let j = 0;
while j < list.len() { list[j] = -list[j]; j += 1; }
print(list);
for k in 9223372036854775806..=9223372036854775807 { total = k; }
print(total);
for k in -2..1 { total = k; }
print(total);
// faults
let goes = true;
i = 0;
try { while goes { i += 1; if i == 2 { goes = 1; } } } catch (e) { print(e.message) }
print(i);
total = 7;
for k in 0..3 {
    try {
        if k > 0 {
            if k > 1 { total = 1 / (k - 2); }
            total = 100;
        }
        total += 1;
    } catch (e) { total = -k; }
    print(total);
}
// values of conditions
let v = if total < 0 { total += 1; total } else { 0 };
print(v);
print((if false { 1 }) == ());
print({ if true { total = 5; } } == ());
fn size(x) { if x > 0 { if x > 5 { "big" } else { "small" } } }
print(size(6) + size(1));
print(size(0) == ());
fn next(x) { if x > 0 { x } x + 1 }
print(next(1));
print(!(1 > 2) && (2 > 1 || 1 / 0 == 0));
try { true && 1 } catch (e) { print(e.message) }
print(false && 1 == "a");
print(1 < "a" || 'a' < 'b');
print(((((((((((1 + 2) * 3) - 4) + 5) * 6) - 7) + 8) * 9) - 10) + 11) > 549);
let b = [true, false];
while b[0] { b[0] = b[1]; }
print(b);
