//--- exclusive
for i in 0..3 { print(i); }
//= 0
//= 1
//= 2
//--- inclusive
for i in 1..=3 { print(i); }
//= 1
//= 2
//= 3
//--- shown
print(1..3);
print(1..=3);
print([0..2]);
//= 1..3
//= 1..=3
//= [0..2]
//--- types
print(type_of(0..1));
print(type_of(0..=1));
//= range
//= range=
//--- empty ones
for i in 3..3 { print("never"); }
for i in 5..1 { print("never"); }
for i in 3..=3 { print(i); }
//= 3
//--- below zero
for i in -2..1 { print(i); }
//= -2
//= -1
//= 0
//--- in a variable
let r = 2..5;
let sum = 0;
for i in r { sum += i; }
for i in r { sum += i; }
print(sum);
//= 18
//--- numbers in it
print(3 in 1..3);
print(3 in 1..=3);
print(0 !in 1..3);
//= false
//= true
//= true
//--- the ends are expressions
let n = 2;
for i in n - 1..n + 1 { print(i); }
//= 1
//= 2
//--- compared
print((1..3) == (1..3));
print((1..3) == (1..4));
//= true
//= false
