print(0o17 + 0x1F);
let name = "world";
print(`hello ${name}, ${1 + 2} and ${let x = 4; x * x}`);
print(`
  two
lines`);
print(#"raw "text" \n"#);
print("one \
       line");
print(3 in [1, 2, 3]);
print(4 !in [1, 2, 3]);
print("ell" in "hello");
print("a" in #{a: 1});
let u = ();
print(u ?? 7);
print(5 ?? 7);
print(u ?? () ?? 9);
let f = |x| x + 1;
print((f ?? 3).call(4));
print([1] ?? 3);
print(#{} ?? 3);
if 3 in [3] && !(2 in [3]) { print("yes"); }
print(`a``b`);
print(1 + 2 in [3]);
print(1 in [1] == true);
fn shown(x) { print(`shown ${x}`); x }
print(shown(1) in shown([1, 2]));
