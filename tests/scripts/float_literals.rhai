//--- fractions and exponents
print(1.5);
print(1_234.25);
print(1e9);
print(1.5e-3);
print(0.5e+3);
print(123.456e-10);
//= 1.5
//= 1234.25
//= 1000000000.0
//= 0.0015
//= 500.0
//= 1.23456e-8
//--- a point without digits
let x = 2.;
print(x);
print([1., 2. ]);
//= 2.0
//= [1.0, 2.0]
//--- a point that isn't part of the number
print(1.max(2));
let _x = 0;
let n = 0;
for i in 1..3 { n += i; }
print(n);
//= 2
//= 3
//--- a name of a method that is no digit
let x = 1._x;
//! _x
//--- the negative of a number is a literal
const LOW = -1.5;
fn low() { global::LOW }
print(low());
//= -1.5
//--- the nearest number
print(0.1);
print(9007199254740993.0);
print(1e999);
print(-1e999);
//= 0.1
//= 9.007199254740992e15
//= inf
//= -inf
//--- a case of a switch
fn f(x) { switch x { 1.5 => "more", -1.5 => "less", 1 => "one", _ => "other" } }
print([f(1.5), f(-1.5), f(1), f(2.5)]);
//= ["more", "less", "one", "other"]
//--- a case repeated
switch 1.5 { 1.5 => 1, 1.50 => 2 }
//! repeated
