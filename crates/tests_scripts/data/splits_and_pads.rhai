let parts = "one,two,three".split(",");
print(parts.len());
print(parts[2]);
print("a-b".split('-')[1]);
let halves = "hello".split(2);
print(halves[0] + "|" + halves[1]);
halves = "hello".split(-1);
print(halves[0] + "|" + halves[1]);
halves = "hello".split(9);
print(halves[0] + "|" + halves[1]);
print("abc".split("").len());
let t = "ab";
t.pad(5, '.');
print(t);
t.pad(8, "xy");
print(t);
t.pad(3, '-');
print(t);
pad(t, 9, '!');
print(t);
print("ff".parse_int(16));
print("-101".parse_int(2));
print("zz".parse_int(36));
print(" 42 ".parse_int());
try { "12".parse_int(2) } catch (e) { print(e.message) }
try { "1".parse_int(1) } catch (e) { print(e.message) }
try { "1".split(()) } catch (e) { print(e.line) }
