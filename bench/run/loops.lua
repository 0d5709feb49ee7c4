local sum = 0
for a = 0, 599 do
    local b = 0
    while b < 600 do
        if (a + b) % 3 == 0 then sum = sum + a * b else sum = sum - b end
        b = b + 1
    end
end
print(sum)
