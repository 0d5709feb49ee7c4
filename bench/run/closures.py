def apply(f, n):
    total = 0
    for i in range(n):
        total += f(i)
    return total


def main():
    k = 3
    total = apply(lambda x: x * k + 1, 30000)
    calls = 0

    def counted(x):
        nonlocal calls
        calls += 1
        return x - calls

    total += apply(counted, 30000)
    print(total)
    print(calls)


main()
