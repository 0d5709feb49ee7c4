local limit = 200000
local is_prime = {}
for n = 0, limit do is_prime[n] = true end
is_prime[0] = false
is_prime[1] = false
local n = 2
while n * n <= limit do
    if is_prime[n] then
        local k = n * n
        while k <= limit do
            is_prime[k] = false
            k = k + n
        end
    end
    n = n + 1
end
local count = 0
for k = 0, limit do
    if is_prime[k] then count = count + 1 end
end
print(count)
