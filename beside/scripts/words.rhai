let m = #{};
let n = 0;
for i in 0..200000 {
    let k = "w" + (i * 7919 % 1000);
    if m.contains(k) { m[k] += 1; } else { m[k] = 1; n += 1; }
}
print(n);
print(m["w7"]);
