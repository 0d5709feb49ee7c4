local count = {}
local seed = 7
for i = 0, 19999 do
    seed = (seed * 1103515245 + 12345) % 2147483648
    local name = "k" .. (seed // 65536 % 100)
    if count[name] then count[name] = count[name] + 1 else count[name] = 1 end
end
local point = { x = 0, y = 0 }
for i = 0, 19999 do
    point.x = point.x + i
    point.y = point.y + point.x % 7
end
local size, most = 0, 0
for _, n in pairs(count) do
    size = size + 1
    most = math.max(most, n)
end
print(size)
print(most)
print(point.x + point.y)
