local function apply(f, n)
    local sum = 0
    for i = 0, n - 1 do sum = sum + f(i) end
    return sum
end

local k = 3
local total = apply(function(x) return x * k + 1 end, 30000)
local calls = 0
total = total + apply(function(x) calls = calls + 1; return x - calls end, 30000)
print(total)
print(calls)
