local function map(a, f) local b = {} for i = 1, #a do b[i] = f(a[i]) end return b end
local function filter(a, f) local b = {} for i = 1, #a do if f(a[i]) then b[#b + 1] = a[i] end end return b end
local function reduce(a, f, s) for i = 1, #a do s = f(s, a[i]) end return s end
local a = {}
for i = 0, 299999 do a[#a + 1] = i end
local b = map(a, function(x) return x * 2 end)
local c = filter(b, function(x) return x % 3 == 0 end)
print(reduce(c, function(sum, x) return sum + x end, 0))
