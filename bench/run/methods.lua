local Account = {}
Account.__index = Account

function Account.new(balance) return setmetatable({ balance = balance, count = 0 }, Account) end

function Account:deposit(n)
    self.balance = self.balance + n
    self.count = self.count + 1
end

function Account:total() return self.balance * 2 + self.count end

local account = Account.new(0)
for i = 0, 19999 do account:deposit(i % 10) end
print(account:total())
local bank = { accounts = { [0] = Account.new(5), Account.new(7) } }
for i = 0, 19999 do bank.accounts[i % 2]:deposit(1) end
print(bank.accounts[0]:total() + bank.accounts[1]:total())
local stack = {}
for i = 0, 19999 do
    table.insert(stack, i)
    if #stack > 50 then
        table.remove(stack)
        table.remove(stack)
    end
end
print(#stack)
