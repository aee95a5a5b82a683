// arrays: every index, operator and type of item
let a = [10, 20, 30];
print(a[-1] + a[0] * a[1]);
a[-1] = 31;
a[0] += 5;
a[1] -= a[0];
a[2] ^= a[a[1] % 2];
print(a);
a[1] = "t";
print(a[1] + a[0]);
a[1] += "u";
a[1] += a[0];
print(a[1]);
a[1] = 7;
a[1] *= a[1];
a[1] **= 2;
a[0] = [1, 2];
a[0][1] = 9;
a[2] = a;
print(a);
a[2][0][1] += a[2][0][0];
print(a[2][0][1] - a[0][1]);
a[0] = true;
print(a[0] || a[9]);
a[0] = ();
print(a[0] == ());
// what isn't there, and what can't be written
try { a[3] = 1 } catch (e) { print(e.message) }
try { print(a[-4]) } catch (e) { print(e.message) }
try { a["k"] = 1 } catch (e) { print(e.message) }
try { a[0] += 1 } catch (e) { print(e.message) }
try { a.k = 1 } catch (e) { print(e.message) }
let low = -9223372036854775807 - 1;
try { low = -low } catch (e) { print(e.message) }
low = -(low + 1);
print(low);
let top = [9223372036854775807, 0];
try { top[0] += 1 } catch (e) { print(e.message) }
try { top[1] = top[0] * 2 } catch (e) { print(e.message) }
try { top[0] /= top[1] } catch (e) { print(e.message) }
try { top[0] = 1 % top[1] } catch (e) { print(e.message) }
print(top);
const C = [1, [2]];
try { C[0] = 3 } catch (e) { print(e.message) }
try { C[1][0] += 3 } catch (e) { print(e.message) }
let copy = C;
copy[0] = C[0] + C[1][0];
copy[1][0] = 5;
print(copy);
print(C);
// shared arrays and ints
let s = [1, 2];
let add = |n| { s[0] += n; s[1] = s[0]; s[0] };
s[0] = 5;
print(add.call(2) + s[1]);
let n = 1;
let twice = || n *= 2;
n += 2;
twice.call();
n = n + 1;
print(n);
let w = [0, 1];
let itself = || w;
w[0] = itself;
w[1] += 1;
print(w[1] + w[0].call()[1]);
// texts, blobs, ints and maps
let t = "h\u00e9";
t[1] = 'o';
print(t[1] == 'o' && t[-2] == 'h');
let b = blob(3, 1);
b[1] = 300;
b[-1] += b[1];
print(b[1] + b[2]);
print(t.len() + a.len() + b.len());
let bits = 0;
bits[3] = true;
bits[0] = bits[3];
print(bits);
let m = #{ n: 1, a: [1, 2] };
m.n += m.a[1];
m["n"] = m.n + m["n"];
m.a[0] = m.n;
m.more = m.a;
print(m.n + m.more[0] + m.a[-1]);
print(m.none == ());
try { m.none[0] } catch (e) { print(e.message) }
try { m[0] } catch (e) { print(e.message) }
