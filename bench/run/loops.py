def main():
    total = 0
    for a in range(600):
        b = 0
        while b < 600:
            if (a + b) % 3 == 0:
                total += a * b
            else:
                total -= b
            b += 1
    print(total)


main()
