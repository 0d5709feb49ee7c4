// Methods of the script and of the library on variables and on parts of them.
fn deposit(n) { this.balance += n; this.count += 1; }
fn total() { this.balance * 2 + this.count }
let account = #{ balance: 0, count: 0 };
for i in 0..20000 { account.deposit(i % 10); }
print(account.total());
let bank = #{ accounts: [#{ balance: 5, count: 0 }, #{ balance: 7, count: 0 }] };
for i in 0..20000 { bank.accounts[i % 2].deposit(1); }
print(bank.accounts[0].total() + bank.accounts[1].total());
let stack = [];
for i in 0..20000 {
    stack.push(i);
    if stack.len() > 50 { stack.pop(); stack.pop(); }
}
print(stack.len());
