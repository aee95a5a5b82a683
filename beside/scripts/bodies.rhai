let bodies = [];
for i in 0..5 { bodies.push(#{ x: i * 1000, y: i * 700 % 900, vx: 10 - i, vy: i * 3, m: 100 + i }); }
for step in 0..5000 {
    for i in 0..5 {
        for j in 0..5 {
            if i != j {
                let dx = bodies[j].x - bodies[i].x;
                let dy = bodies[j].y - bodies[i].y;
                let d = dx * dx + dy * dy + 1;
                bodies[i].vx += dx * bodies[j].m / d;
                bodies[i].vy += dy * bodies[j].m / d;
            }
        }
    }
    for i in 0..5 {
        bodies[i].x += bodies[i].vx;
        bodies[i].y += bodies[i].vy;
    }
}
print(bodies[0].x);
print(bodies[4].y);
