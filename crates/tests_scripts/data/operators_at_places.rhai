let a = #{l: [9223372036854775807, 2]};
try { a.l[0] *= 5; } catch (e) { print(`${e.line}:${e.position} ${e.message}`); }
try { a.l[1] /= 0; } catch (e) { print(`${e.line}:${e.position} ${e.message}`); }
try { a.l[2] += 1; } catch (e) { print(`${e.line}:${e.position}`); }
try { a.l[1] -= "x"; } catch (e) { print(`${e.line}:${e.position}`); }
print(a.l[1]);
