local m = {}
local n = 0
for i = 0, 199999 do
  local k = "w" .. (i * 7919 % 1000)
  if m[k] then m[k] = m[k] + 1 else m[k] = 1; n = n + 1 end
end
print(n)
print(m["w7"])
