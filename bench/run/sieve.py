def main():
    limit = 200000
    is_prime = [True] * (limit + 1)
    is_prime[0] = False
    is_prime[1] = False
    n = 2
    while n * n <= limit:
        if is_prime[n]:
            k = n * n
            while k <= limit:
                is_prime[k] = False
                k += n
        n += 1
    count = 0
    for prime in is_prime:
        if prime:
            count += 1
    print(count)


main()
