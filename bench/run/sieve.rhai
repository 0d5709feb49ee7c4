// Items of a large array, read and assigned.
let limit = 200000;
let is_prime = [];
is_prime.pad(limit + 1, true);
is_prime[0] = false;
is_prime[1] = false;
let n = 2;
while n * n <= limit {
    if is_prime[n] {
        let k = n * n;
        while k <= limit {
            is_prime[k] = false;
            k += n;
        }
    }
    n += 1;
}
let count = 0;
for prime in is_prime { if prime { count += 1; } }
print(count);
