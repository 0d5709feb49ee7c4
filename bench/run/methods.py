class Account:
    def __init__(self, balance):
        self.balance = balance
        self.count = 0

    def deposit(self, n):
        self.balance += n
        self.count += 1

    def total(self):
        return self.balance * 2 + self.count


def main():
    account = Account(0)
    for i in range(20000):
        account.deposit(i % 10)
    print(account.total())
    bank = {"accounts": [Account(5), Account(7)]}
    for i in range(20000):
        bank["accounts"][i % 2].deposit(1)
    print(bank["accounts"][0].total() + bank["accounts"][1].total())
    stack = []
    for i in range(20000):
        stack.append(i)
        if len(stack) > 50:
            stack.pop()
            stack.pop()
    print(len(stack))


main()
