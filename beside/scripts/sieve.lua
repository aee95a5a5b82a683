local n = 1000000
local a = {}
for i = 0, n - 1 do a[i] = true end
local count = 0
for i = 2, n - 1 do
  if a[i] then
    count = count + 1
    local j = i * 2
    while j < n do a[j] = false; j = j + i end
  end
end
print(count)
