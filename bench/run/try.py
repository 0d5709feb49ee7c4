class Thrown(Exception):
    pass


def checked(n):
    if n % 3 == 0:
        raise Thrown(n)
    return n


def main():
    total = 0
    caught = 0
    for i in range(30000):
        try:
            total += checked(i)
        except Thrown as e:
            caught += e.args[0]
    print(total)
    print(caught)


main()
