//--- sums and differences up to the ends of the integers
let x = 9223372036854775805;
while x < 9223372036854775807 { x += 1; }
print(x);
let y = -9223372036854775806;
while y > -9223372036854775807 { y -= 1; }
y -= 1;
print(y);
//= 9223372036854775807
//= -9223372036854775808
//--- a sum past the end, after sums that fit
let x = 9223372036854775805;
let turns = 0;
while turns < 5 {
    turns += 1;
    print(turns);
    x += 1;
}
//= 1
//= 2
//= 3
//! overflow
//@ 6:7
//--- a difference past the end, within an expression
let x = -9223372036854775807;
let y = 1 + (x - 2);
//! overflow
//@ 2:16
//--- a product past the end, negative
let x = -9223372036854775807;
let n = 0;
while n < 3 {
    print(x * n);
    n += 1;
}
//= 0
//= -9223372036854775807
//! overflow
//@ 4:13
//--- the smallest integer divided by -1
let x = -9223372036854775807 - 1;
let y = -1;
print(x / 1);
print(x / y);
//= -9223372036854775808
//! overflow
//@ 4:9
//--- a zero that a loop reaches
let divisor = 2;
while divisor >= 0 {
    print(10 / divisor);
    divisor -= 1;
}
//= 5
//= 10
//! Division by zero
//@ 3:14
//--- a remainder by a zero that a loop reaches
let divisor = 2;
let rest = 7;
while true {
    rest %= divisor;
    print(rest);
    divisor -= 2;
}
//= 1
//! ero
//@ 4:10
//--- comparisons of two types are false, and two differ
let n = 1;
let t = "1";
print(n == t);
print(n != t);
print(n < t);
print(n >= t);
print(n == true);
//= false
//= true
//= false
//= false
//= false
//--- equal values of each type
let unit = ();
print(unit == ());
print('a' == 'a');
print('a' < 'b');
print(true != false);
print("ab" == "a" + "b");
print([1, 2] == [1, 2]);
//= true
//= true
//= true
//= true
//= true
//= true
//--- one operator with operands of changing types
let values = [1, "b", 'c', 2];
let n = 0;
let text = "";
while n < 4 {
    text += values[n];
    n += 1;
}
print(text);
//= 1bc2
//--- a variable that changes its type
let x = 1;
let n = 0;
while n < 4 {
    if n == 2 { x = "t"; }
    x += n;
    n += 1;
}
print(x);
//= t23
//--- a condition that stops being a truth value
let go_on = true;
let n = 0;
while go_on {
    n += 1;
    print(n);
    if n == 2 { go_on = n; }
}
//= 1
//= 2
//! bool
//@ 3:7
//--- a shared variable in a loop
let n = 0;
let more = || n += 2;
while n < 7 {
    n += 1;
    more.call();
}
print(n);
//= 9
//--- a shared variable that overflows
let n = 9223372036854775805;
let more = || n += 1;
while n > 0 {
    more.call();
    n += 1;
}
//! overflow
//@ 2:17
//--- a shared array
let list = [1, 2, 3];
let first = || list[0];
list[0] = 7;
print(first.call());
print(list[0] + list[2]);
//= 7
//= 10
//--- constants beside variables
const STEP = 3;
const NAME = "n";
let n = 0;
while n < 10 { n += STEP; }
print(NAME + n);
//= n12
//--- items replaced by values of other types
let list = ["a", 1, 'c', ()];
list[0] = 1;
list[1] = "b";
list[2] = true;
list[3] = [4];
print(list[0]);
print(list[1]);
print(list[2]);
print(list[3][0]);
//= 1
//= b
//= true
//= 4
//--- a copy of an array stays as it is
let list = [1, 2, 3];
let copy = list;
list[1] = 9;
copy[2] = 8;
print(list[1] + list[2]);
print(copy[1] + copy[2]);
//= 12
//= 10
//--- an array that a function got stays as it is
fn zeroed(list) { list[0] = 0; list[0] }
let list = [5];
print(zeroed(list));
print(list[0]);
//= 0
//= 5
//--- items by negative indices
let list = [1, 2, 3];
list[-1] = 7;
print(list[-1] + list[-3]);
//= 8
//--- an item past the end, in a loop
let list = [1, 2];
let n = 0;
let sum = 0;
while n < 5 {
    sum += list[n];
    print(sum);
    n += 1;
}
//= 1
//= 3
//! out of bounds
//@ 5:17
//--- an item assigned past the end
let list = [1, 2];
list[0] = 5;
list[2] = 5;
//! out of bounds
//@ 3:6
//--- an item of what is no array
let n = 5;
let list = [1];
print(list[0]);
list = #{};
list["a"] = 1;
print(list["a"]);
print(n[0]);
//= 1
//= 1
//= true
//--- ranges up to the largest integer
for n in 9223372036854775805..=9223372036854775807 { print(n); }
for n in 9223372036854775806..9223372036854775807 { print(n); }
//= 9223372036854775805
//= 9223372036854775806
//= 9223372036854775807
//= 9223372036854775806
//--- ranges without an item
for n in 3..3 { print(n); }
for n in 3..=2 { print(n); }
print("none");
//= none
//--- items of many types, in order
for item in [1, "two", 'c', true, [5]] { print(type_of(item)); }
//= i64
//= string
//= char
//= bool
//= array
//--- items counted
let total = 0;
for (item, n) in [5, "x", 7] {
    if n != 1 { total += item * n; }
}
print(total);
//= 14
//--- an array that changes while it is gone over
let list = [1, 2, 3];
for item in list {
    list[2] = 9;
    print(item);
}
print(list[2]);
//= 1
//= 2
//= 3
//= 9
//--- statements whose values are dropped
let n = 0;
while n < 3 {
    "text" + n;
    [n, n];
    n;
    #{ a: n };
    n += 1;
}
print(n);
//= 3
//--- values on the stack beside a fault that is caught
let x = 9223372036854775807;
let list = [1, "two"];
let n = 0;
while n < 2 {
    try {
        print(list[1] + (1 + x));
    } catch (e) {
        print("caught");
    }
    n += 1;
}
print(list[1] + n);
//= caught
//= caught
//= two2
//--- arguments and results of many types
fn same(x) { x }
print(same(1) + same("a") + same('b'));
print(same(()) == ());
print(same([1, 2])[1]);
//= 1ab
//= true
//= 2
//--- variables of a function end with it
fn sum(n) {
    let text = "x";
    let left = 0;
    if n > 0 { let more = n - 1; left = sum(more); }
    left + n
}
print(sum(4));
//= 10
//--- an operator of the script's own, beside that of integers
fn both(a, b) { a + b }
let n = 0;
for i in 0..3 { n = both(n, i); }
print(n);
print(both("a", n));
//= 3
//= a3
