//--- without else
if 1 < 2 { print("yes"); }
if 1 > 2 { print("no"); }
//= yes
//--- with else
if 1 > 2 { print("then"); } else { print("else"); }
//= else
//--- else if
fn size(n) {
    if n < 10 { "small" } else if n < 100 { "medium" } else { "large" }
}
print([size(1), size(50), size(500)]);
//= ["small", "medium", "large"]
//--- as a value
let n = 7;
let word = if n % 2 == 0 { "even" } else { "odd" };
print(word);
//= odd
//--- without else it is unit
let x = if false { 1 };
print(x == ());
//= true
//--- as an operand
print(1 + if true { 2 } else { 3 } * 10);
//= 21
//--- nested
let a = 1;
let b = 2;
if a == 1 {
    if b == 1 { print("1 1"); } else { print("1 other"); }
} else {
    print("other");
}
//= 1 other
//--- a variable of a branch
let x = 1;
if true { let x = 2; print(x); }
print(x);
//= 2
//= 1
//--- only one branch runs
fn noted(name) { print(name); true }
if noted("a") { print("then"); } else if noted("b") { print("second"); }
//= a
//= then
//--- the condition is a block in brackets
if ({ let x = 3; x > 2 }) { print("ok"); }
//= ok
//--- as the last statement of the script
if 1 == 1 { 10 } else { 20 }
//= 10
