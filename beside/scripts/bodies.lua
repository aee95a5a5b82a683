local function div(a, b) local q = a // b; if q < 0 and q * b ~= a then q = q + 1 end return q end
local bodies = {}
for i = 0, 4 do bodies[i] = { x = i * 1000, y = i * 700 % 900, vx = 10 - i, vy = i * 3, m = 100 + i } end
for step = 1, 5000 do
  for i = 0, 4 do
    for j = 0, 4 do
      if i ~= j then
        local dx = bodies[j].x - bodies[i].x
        local dy = bodies[j].y - bodies[i].y
        local d = dx * dx + dy * dy + 1
        bodies[i].vx = bodies[i].vx + div(dx * bodies[j].m, d)
        bodies[i].vy = bodies[i].vy + div(dy * bodies[j].m, d)
      end
    end
  end
  for i = 0, 4 do
    bodies[i].x = bodies[i].x + bodies[i].vx
    bodies[i].y = bodies[i].y + bodies[i].vy
  end
end
print(bodies[0].x)
print(bodies[4].y)
