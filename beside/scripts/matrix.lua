local n = 200
local a, b, c = {}, {}, {}
for i = 0, n - 1 do
  local r, s, z = {}, {}, {}
  for j = 0, n - 1 do r[j] = i + j; s[j] = i - j; z[j] = 0 end
  a[i] = r; b[i] = s; c[i] = z
end
for i = 0, n - 1 do
  for j = 0, n - 1 do
    local t = 0
    for k = 0, n - 1 do t = t + a[i][k] * b[k][j] end
    c[i][j] = t
  end
end
print(c[5][7])
