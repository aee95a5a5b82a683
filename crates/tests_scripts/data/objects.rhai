let account = #{
    balance: 0,
    deposit: |n| { this.balance += n; this.balance },
    name: || "acc"
};
print(account.deposit(5));
print(account.deposit(7));
print(account.balance);
print(account.name());
fn make(start) { let step = 2; #{ n: start, next: || { this.n += step; this.n } } }
let c = make(10);
print(c.next());
print(c.next());
print(make(1).next());
let all = [make(0), make(100)];
all[1].next();
print(all[1].n);
print(all[0].next());
let o = #{ len: || 99 };
print(o.len());
print(#{ a: 1 }.len());
fn area() { this.w * this.h }
let r = #{ w: 2, h: 3, area: Fn("area") };
print(r.area());
let curried = #{ base: 10, f: (|a, b| this.base + a * b).curry(2) };
print(curried.f(3));
try { account.deposit() } catch (e) { print(e.message.contains("deposit")) }
let add_to = |n| { this += n; };
let y = 1;
y.call(add_to, 4);
print(y);
print(call(|a, b| a * b, 6, 7));
let inner = #{ v: 1 };
inner.v.call(add_to, 2);
print(inner.v);
try { call(add_to, 1) } catch (e) { print(e.message) }
try { y.call(2) } catch (e) { print("no function") }
let seen = #{ items: [], filter: |n| { this.items.push(n); this }, find: |n| this.items.contains(n) };
print(seen.filter(3).filter(4).items.len());
seen.filter(8);
print(seen.find(8));
let stack = #{ items: [], push: |v| { this.items.push(v); }, pop: || this.items.pop() };
stack.push(1);
stack.push(2);
print(stack.pop());
print(stack.items);
let tick = #{ at: 0, on: |f| { f.call(this.at); this.at += 1; } };
let log = [];
tick.on(|n| { log.push(n); });
tick.on(|n| { log.push(n); });
print(log);
