//--- decimal
print(42);
print(1_000_000);
print(-7);
//= 42
//= 1000000
//= -7
//--- hexadecimal
print(0xff);
print(0xFF_FF);
//= 255
//= 65535
//--- octal and binary
print(0o17);
print(0b1010_1010);
//= 15
//= 170
//--- hexadecimal with all bits
print(0xffff_ffff_ffff_ffff);
//= -1
//--- largest and smallest
print(9223372036854775807);
print(-9223372036854775807 - 1);
//= 9223372036854775807
//= -9223372036854775808
//--- signs
let x = 5;
print(-x);
print(+x);
print(-(-x));
//= -5
//= 5
//= 5
//--- division goes towards zero
print(7 / 2);
print(-7 / 2);
print(7 / -2);
print(7 % 3);
print(-7 % 3);
print(7 % -3);
//= 3
//= -3
//= -3
//= 1
//= -1
//= 1
//--- powers
print(2 ** 10);
print(7 ** 0);
print((-2) ** 3);
print(10 ** 18);
//= 1024
//= 1
//= -8
//= 1000000000000000000
//--- shifts
print(1 << 10);
print(1024 >> 3);
print(-16 >> 2);
//= 1024
//= 128
//= -4
//--- bit operations
print(12 & 10);
print(12 | 10);
print(12 ^ 10);
//= 8
//= 14
//= 6
//--- bits by index
let n = 5;
print([n[0], n[1], n[2], n[-1]]);
//= [true, false, true, false]
//--- the value of the script
6 * 7
//= 42
