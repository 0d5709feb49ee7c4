//--- division by zero
let x = 1;
let y = x / 0;
//! Division by zero
//@ 2:11
//--- remainder by zero
let x = 0;
print(5 % x);
//! ero
//@ 2:9
//--- what was printed before stays
print("one");
print("two");
let x = 0;
print(1 / x);
//= one
//= two
//! Division by zero
//@ 4:9
//--- a sum that overflows
let x = 9223372036854775807;
x + 1
//! overflow
//@ 2:3
//--- a difference that overflows
let x = -9223372036854775807;
let y = x - 2;
//! overflow
//@ 2:11
//--- a product that overflows
let x = 4611686018427387904;
print(x * 2);
//! overflow
//@ 2:9
//--- a power that overflows
print(2 ** 63);
//! overflow
//@ 1:9
//--- an assignment that overflows
let x = 9223372036854775807;
x += 1;
//! overflow
//@ 2:3
//--- the smallest integer negated
let x = -9223372036854775807 - 1;
print(-x);
//! overflow
//@ 2:7
//--- the absolute value of the smallest integer
let x = -9223372036854775807 - 1;
print(x.abs());
//! overflow
//@ 2:9
//--- an exponent below zero
let x = -1;
print(2 ** x);
//@ 2:9
//--- an index after the end
let a = [1, 2];
print(a[2]);
//! out of bounds
//@ 2:9
//--- an index before the start
let a = [1, 2];
print(a[-3]);
//! out of bounds
//@ 2:9
//--- an item assigned after the end
let a = [1];

a[1] = 2;
//! out of bounds
//@ 3:3
//--- a character after the end
let s = "abc";
print(s[3]);
//! out of bounds
//@ 2:9
//--- an unknown function
print("before");
unknown(1);
//= before
//! Function not found: unknown
//@ 2:1
//--- an unknown method
let x = 1;
x.unknown();
//! Function not found: unknown
//@ 2:3
//--- a wrong number of arguments
fn f(a, b) { a + b }
f(1);
//! Function not found: f
//@ 2:1
//--- operands of types that don't fit
let x = 1;
let y = x - "a";
//! Function not found: -
//@ 2:11
//--- a fault in an inner expression
let a = 1;
let b = 2;

a +
  (b - "x");
//! Function not found: -
//@ 5:6
//--- a thrown text
print("before");
throw "boom";
//= before
//! Runtime error: boom
//@ 2:1
//--- a thrown integer
throw 42;
//! Runtime error: 42
//@ 1:1
//--- thrown in a function
fn check(n) {
    if n > 1 {
        throw "too large";
    }
    n
}
print(check(1));
print(check(2));
//= 1
//! Runtime error: too large
//@ 3:9
//--- a fault in a function
fn divide(a, b) {
    a / b
}
print(divide(6, 3));
print(divide(1, 0));
//= 2
//! Division by zero
//@ 2:7
//--- a fault in a closure
let f = |x| 10 / x;
print(f.call(5));
print(f.call(0));
//= 2
//! Division by zero
//@ 1:16
//--- a fault in an interpolation
let x = 0;
print(`one ${1 / x}`);
//! Division by zero
//@ 2:16
//--- a condition that is no truth value
let x = 1;
if x { print("never"); }
//! Data type incorrect
//@ 2:4
//--- an integer isn't iterated over
let x = 5;
for i in x { print(i); }
//@ 2:10
//--- calls without end
fn forever(n) { forever(n + 1) + 1 }
forever(0)
//! Stack overflow
//@ 1
//--- calls without end can't be caught
fn forever(n) { forever(n + 1) + 1 }
try { forever(0); } catch { print("caught"); }
//! Stack overflow
//--- a property that isn't there
let x = 5;
print(x.no_such_property);
//@ 2:9
//--- a method of unit
let m = #{};
m.missing.push(1);
//@ 2:11
//--- a text that is no number
let s = "12a";
print(parse_int(s));
//@ 2:7
//--- this in a plain call
fn f() { this }
f();
//! 'this' not bound
//@ 1:10
//--- a call of what is no function
let f = 5;
f.call(1);
//@ 2
//--- an unknown pointer
let f = Fn("not_there");
print("made");
f.call(1);
//= made
//! Function not found: not_there
//@ 3
//--- a fault in a catch
try {
    throw 1;
} catch {
    print("catch");
    let x = 1 / 0;
}
//= catch
//! Division by zero
//@ 5:15
//--- thrown again
try {
    throw "first";
} catch (e) {
    print("seen " + e);
    throw e;
}
//= seen first
//! Runtime error: first
//@ 5:5
//--- a fault in a condition of a switch
switch 1 { 1 if 1 / 0 == 1 => 2 }
//! Division by zero
//@ 1:19
//--- a fault in a method
fn inc() { this += 1; }
let s = true;
s.inc();
//! Function not found: +
//@ 1:17
//--- a fault in a loop's later round
let a = [3, 2, 1, 0];
for x in a {
    print(6 / x);
}
//= 2
//= 3
//= 6
//! Division by zero
//@ 3:13
//--- an index at the end of a chain
let m = #{ rows: [[1, 2], [3]] };
print(m.rows[1][7]);
//! out of bounds
//@ 2:17
//--- an index on the way of a chain
let m = #{ rows: [[1, 2], [3]] };
m.rows[2][0] = 5;
//! out of bounds
//@ 2:8
//--- an unknown method within a chain
let m = #{ list: [1, 2] };
m.list.unknown(1).len();
//! Function not found: unknown
//@ 2:8
//--- an op-assignment at the end of a chain
let m = #{ n: true };
m.n += 1;
//! Function not found: +
//@ 2:5
//--- an index of a method's receiver
fn add(x) { this += x; }
let list = [[1], [2]];
list[1][3].add(2);
//! out of bounds
//@ 3:9
//--- an index of a wrong type
let list = [1, 2];
let key = true;
print(list[key]);
//@ 3:12
//--- thrown in a loop, after other operations
let n = 0;
while n < 3 {
    n += 1;
    if n == 2 {
        throw n;
    }
}
//! Runtime error: 2
//@ 5:9
