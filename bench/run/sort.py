def main():
    items = []
    seed = 42
    for _ in range(700):
        seed = (seed * 1103515245 + 12345) % 2147483648
        items.append(seed % 1000)
    for i in range(1, 700):
        item = items[i]
        k = i
        while k > 0 and items[k - 1] > item:
            items[k] = items[k - 1]
            k -= 1
        items[k] = item
    total = 0
    for i, item in enumerate(items):
        total += item * i
    print(total)


main()
