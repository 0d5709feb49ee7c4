local list = {}
local seed = 42
for i = 0, 699 do
    seed = (seed * 1103515245 + 12345) % 2147483648
    list[i] = seed % 1000
end
for i = 1, 699 do
    local item = list[i]
    local k = i
    while k > 0 and list[k - 1] > item do
        list[k] = list[k - 1]
        k = k - 1
    end
    list[k] = item
end
local sum = 0
for i = 0, 699 do sum = sum + list[i] * i end
print(sum)
