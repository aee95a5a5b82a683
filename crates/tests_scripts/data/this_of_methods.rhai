fn add(n) { this += n; }
fn double() { this *= 2; this }
fn grow(n) { this.push(n); this.len() }
fn twice(n) { this.add(n); this.add(n); }
fn become(v) { this = v; }
fn peek() { this + 1 }
fn me() { this }
fn fails() { this.push(9); throw "stop"; }
let x = 40;
x.add(2);
print(x);
print(x.double());
print(x);
let a = [1];
print(a.grow(5));
print(a);
let m = #{ list: [], pos: #{ x: 1 } };
m.list.grow(7);
m.list.grow(8);
print(m.list);
m.pos.x.add(10);
m["pos"].x.add(1);
print(m.pos.x);
let rows = [[1], [2]];
rows[1].grow(3);
rows[-1].grow(4);
print(rows);
print([1].grow(2));
x = 0;
x.twice(3);
print(x);
x.become("text");
print(x);
print(a.me());
print(a.me() == a);
try { add(1) } catch (e) { print(e.message); print(e.position); }
try { a.fails() } catch (e) { print(e) }
print(a);
try { m.list.fails() } catch { }
print(m.list);
const FIXED = 5;
try { FIXED.add(1) } catch (e) { print(e.message) }
print(FIXED.peek());
let s = 1;
let see = || s;
s.add(4);
print(see.call());
s.twice(1);
print(see.call());
let held = #{ list: [] };
let count = || held.list.len();
held.list.grow(1);
held.list.grow(1);
print(count.call());
fn nested() { let own = [1]; own.grow(2); this.grow(own.len()); own }
print(a.nested());
print(a);
fn safe(x) { try { this.push(1 / x) } catch { this.push(-1) } this.len() }
let tried = [];
print(tried.safe(1));
print(tried.safe(0));
print(tried);
