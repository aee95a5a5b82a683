fn int.kind() { "int " + this }
fn string.kind() { "text " + this }
fn "map".kind() { "map" }
fn kind() { "other" }
let i = 1;
print(i.kind());
print("a".kind());
print(#{}.kind());
print([].kind());
print(kind());
fn array.len() { 77 }
print([1].len());
print("ab".len());
fn int.add(n) { this += n }
i.add(4);
print(i);
try { [].add(1) } catch (e) { print(e.message.contains("add")) }
fn bool.only() { 1 }
try { only() } catch (e) { print(e.message.contains("only")) }
print(true.only());
fn push(n) { "not " + n }
let l = [1];
print(l.push(2));
print(l);
fn int.fib() { if this < 2 { this } else { (this - 1).fib() + (this - 2).fib() } }
let f = 12;
print(f.fib());
print(f);
