fn name(x) {
  switch x {
    1 | 2 => "small",
    3..=5 if x != 4 => "middle",
    10..20 => "teens",
    -1 => "minus",
    'a' => "char a",
    "a" => "text a",
    "abc" => "text abc",
    true => "yes",
    () => "unit",
    42 if false => "never",
    40..50 => "forties",
    _ => "other"
  }
}
for x in [1, 2, 3, 4, 5, 10, 19, 20, -1, 'a', "a", "abc", true, false, (), 42, 43, [1], #{}, 'b'] { print(`${x}: ${name(x)}`); }
let n = 0;
switch 3 { 1 => n = 1, 3 => { n = 3; } }
print(n);
switch 4 { 1 => n = 1, 3 => { n = 3; } }
print(n);
print(switch 4 { 1 => 2 } == ());
let v = switch n { 3 if n > 2 => n * 2, 3 => 0, _ => 1 };
print(v);
let held = 5; let f = || held += 1; f.call();
print(switch held { 6 => "six", _ => "no" });
print(switch held { 5..=6 => "in", _ => "out" });
let a = [1, 2]; switch a { 1 => 1, _ => a.push(3) }
print(a);
let i = 0;
loop { switch i { 0..3 => i += 1, _ => { break; } } }
print(i);
fn early(x) { switch x { 1 => return "one", _ => {} } "late" }
print(early(1)); print(early(2));
const K = 7; print(switch K { 7 => "seven", _ => "?" });
