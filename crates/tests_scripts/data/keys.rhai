let m = #{ a: 1, "b c": 2 };
print(m.a + m["b c"]);
print(type_of(m.z));
m.z = 3;
print(m);
m["z"] += 4;
print(m.z);
m.y.x = 1;
