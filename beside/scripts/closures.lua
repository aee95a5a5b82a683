local total = 0
local add = function(x) total = total + x end
for i = 0, 999999 do add(i) end
print(total)
