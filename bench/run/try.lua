local function checked(n)
    if n % 3 == 0 then error(n) end
    return n
end

local sum, caught = 0, 0
for i = 0, 29999 do
    local ok, value = pcall(checked, i)
    if ok then sum = sum + value else caught = caught + value end
end
print(sum)
print(caught)
