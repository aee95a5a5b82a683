let m = #{};
try { m.a += 1; } catch { print("no"); }
print(m);
m.a += "x";
print(m);
