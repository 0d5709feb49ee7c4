def main():
    count = {}
    seed = 7
    for _ in range(20000):
        seed = (seed * 1103515245 + 12345) % 2147483648
        name = "k" + str(seed // 65536 % 100)
        if name in count:
            count[name] += 1
        else:
            count[name] = 1
    point = {"x": 0, "y": 0}
    for i in range(20000):
        point["x"] += i
        point["y"] += point["x"] % 7
    most = 0
    for name in count.keys():
        most = max(most, count[name])
    print(len(count))
    print(most)
    print(point["x"] + point["y"])


main()
