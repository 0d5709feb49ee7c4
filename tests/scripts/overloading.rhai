//--- by the number of parameters
fn f() { "none" }
fn f(a) { "one" }
fn f(a, b) { "two" }
print([f(), f(1), f(1, 2)]);
//= ["none", "one", "two"]
//--- one calls the other
fn sum(a) { sum(a, 10) }
fn sum(a, b) { a + b }
print(sum(5));
//= 15
//--- by the type of this
fn int.describe() { "integer " + this }
fn string.describe() { "string " + this }
let a = 5;
let b = "five";
print(a.describe());
print(b.describe());
//= integer 5
//= string five
//--- a type before any
fn int.kind() { "integer" }
fn kind() { "any" }
let a = 1;
let b = 'c';
print(a.kind());
print(b.kind());
//= integer
//= any
//--- a quoted type
fn "string".shout() { this + "!" }
let s = "hey";
print(s.shout());
//= hey!
//--- a method and a function of one name
fn double() { this * 2 }
fn double(x) { x * 2 + 1 }
let n = 10;
print(n.double());
print(double(n));
//= 20
//= 21
//--- a method for a type leaves the library's function of that name
fn array.clear(x) { print(x); }
let a = [1, 2];
clear(a);
print(a);
a.clear(7);
//= []
//= 7
