local function copy(a) local b = {} for i = 0, 16 do b[i] = a[i] end return b end
local function place(n, row, columns, up, down)
  if row == n then return 1 end
  local found = 0
  for column = 0, n - 1 do
    local u, d = row + column, row - column + n
    if not columns[column] and not up[u] and not down[d] then
      local c2, u2, d2 = copy(columns), copy(up), copy(down)
      c2[column] = true; u2[u] = true; d2[d] = true
      found = found + place(n, row + 1, c2, u2, d2)
    end
  end
  return found
end
local columns, up, down = {}, {}, {}
for i = 0, 16 do columns[i] = false; up[i] = false; down[i] = false end
print(place(8, 0, columns, up, down))
