//--- products before sums
print(1 + 2 * 3);
print((1 + 2) * 3);
print(10 - 4 - 3);
print(100 / 10 / 2);
print(2 * 7 % 4);
//= 7
//= 9
//= 3
//= 5
//= 2
//--- powers to the right
print(2 ** 3 ** 2);
print(2 * 3 ** 2);
print(-2 ** 2);
//= 512
//= 18
//= 4
//--- shifts before all
print(1 << 3 + 1);
print(2 * 1 << 2);
print(2 ** 1 << 2);
//= 9
//= 8
//= 16
//--- sums before comparing
print(1 + 1 < 3);
print(1 + 1 == 2);
//= true
//= true
//--- comparing before equality
print(1 < 2 == true);
print(3 > 2 != false);
//= true
//= true
//--- equality before and
print(1 == 1 && 2 == 2);
//= true
//--- and before or
print(true || true && false);
print((true || true) && false);
print(false && true || true);
//= true
//= false
//= true
//--- sums before ranges
print(0..1 + 2);
//= 0..3
//--- coalescing after sums, before comparing
print(() ?? 1 + 2);
print(() ?? 5 > 4);
//= 3
//= true
//--- not before and
print(!false && false);
print(!(true && false));
//= false
//= true
//--- minus before a product
print(-2 * -3);
print(4 - -3);
//= 6
//= 7
//--- in before equality
print(1 in [1] == true);
print(1 + 1 in [2]);
//= true
//= true
//--- and by bits with or by bits
print(1 | 2 & 2);
print(7 ^ 2 | 8);
//= 3
//= 13
//--- coalescing binds tighter than comparing
print(1 ?? 5 > 4);
//= false
