// ints, their bits, ranges, function pointers, and maps as JSON
print((255).to_hex());
print((8).to_octal());
print((5).to_binary());
print((-1).to_hex());
print((-7).sign());
let n = 7;
print(n.is_odd);
print(n.is_even());
print(n.is_zero);
print(n.get_bit(0));
print(n.get_bit(3));
print(n.get_bit(-1));
n.set_bit(3, true);
print(n);
n.set_bit(0, false);
print(n);
print(n.get_bits(1..4));
print(n.get_bits(1..=2));
print(n.get_bits(1, 2));
n.set_bits(0..4, 5);
print(n);
n.set_bits(4, 4, 3);
print(n);
try { n.get_bit(64); } catch { print("no such bit"); }
print(n.bits.len);
print((5).bits.filter(|b| b).len);
let r = range(2, 5);
print(type_of(r));
print(r.start);
print(r.end);
print(r.is_exclusive);
print(r.is_inclusive);
print(r.contains(4));
print(r.contains(5));
print((1..=3).contains(3));
print((3..3).is_empty);
print((3..=3).is_empty);
print(4 in r);
let t = 0;
for i in range(0, 4) { t += i; }
print(t);
let f = |x| x;
print(f.is_anonymous);
print(Fn("double").name);
print(#{ a: 1, b: "x", c: (), d: #{ e: true }, f: [1, "y"] }.to_json());
print(is_def_var("n"));
print(is_def_var("later"));
let later = is_def_var("later");
print(is_def_var("later"));
{ let inner = 1; print(is_def_var("inner")); }
print(is_def_var("inner"));
fn two(x, y) { is_def_var("x") && !is_def_var("n") }
print(two(1, 2));
print(is_def_fn("two", 2));
print(is_def_fn("two", 1));
