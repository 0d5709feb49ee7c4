//--- integers compared
print(1 < 2);
print(2 <= 2);
print(1 > 2);
print(2 >= 3);
print(1 == 1);
print(1 != 1);
//= true
//= true
//= false
//= false
//= true
//= false
//--- different types
print(1 == "1");
print(1 != "1");
print(1 < "2");
print("1" >= 1);
print(true == 1);
print(() == 0);
//= false
//= true
//= false
//= false
//= false
//= false
//--- unit
print(() == ());
print(() != ());
//= true
//= false
//--- truth values
print(true && false);
print(true || false);
print(!true);
print(!!true);
print(true == false);
//= false
//= true
//= false
//= true
//= false
//--- truth values by bit operators
print(true & false);
print(true | false);
print(true ^ true);
//= false
//= true
//= false
//--- and stops early
fn seen(x) { print("seen"); x }
print(false && seen(true));
print(true && seen(true));
//= false
//= seen
//= true
//--- or stops early
fn seen(x) { print("seen"); x }
print(true || seen(true));
print(false || seen(false));
//= true
//= seen
//= false
//--- the bit operator computes both
fn seen(x) { print("seen"); x }
print(false & seen(true));
//= seen
//= false
//--- coalescing
fn seen(x) { print("seen"); x }
print(1 ?? seen(2));
print(() ?? seen(2));
print(false ?? 3);
print(() ?? () ?? 4);
//= 1
//= seen
//= 2
//= false
//= 4
//--- assignments
let x = 10;
x += 5; print(x);
x -= 3; print(x);
x *= 4; print(x);
x /= 5; print(x);
x %= 5; print(x);
x **= 3; print(x);
//= 15
//= 12
//= 48
//= 9
//= 4
//= 64
//--- assignments of bits
let x = 6;
x &= 3; print(x);
x |= 8; print(x);
x ^= 1; print(x);
x <<= 2; print(x);
x >>= 1; print(x);
//= 2
//= 10
//= 11
//= 44
//= 22
//--- in
print(2 in [1, 2, 3]);
print("ell" in "hello");
print('z' in "hello");
print("a" in #{ a: () });
print(5 !in [1, 2]);
//= true
//= true
//= false
//= true
//= true
//--- operands from left to right
fn note(x) { print(x); x }
print(note(1) + note(2) * note(3));
//= 1
//= 2
//= 3
//= 7
//--- a character counts as a string of one character
print(['a' == "a", "a" == 'a', 'a' == "ab", 'a' != "b"]);
print(['a' < "b", "b" > 'a', "ab" > 'a', "" < 'a', 'b' <= "b"]);
print("hello"[0] == "h");
//= [true, true, false, true]
//= [true, true, true, true, true]
//= true
//--- truth values have an order
print([true > false, true >= true, false < true, true < false]);
//= [true, true, true, false]
//--- arrays have no order
let a = [1];
a < [2]
//! Function not found: < (array, array)
//@ 2:3
//--- nor have object maps
#{} >= #{}
//! Function not found: >= (map, map)
//--- unit is never less
print([() < (), () >= (), () == ()]);
//= [false, false, true]
