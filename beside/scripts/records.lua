local a = {}
for i = 0, 9 do a[i] = { f = { [0] = 0, 0, 0, 0 }, g = i } end
local n = 0
while n < 1000000 do
  local f = a[n % 10].f
  f[n % 4] = f[n % 4] + 1
  n = n + 1
end
print(a[3].f[1])
