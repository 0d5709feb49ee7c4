//--- a number with an exponent that has no digits
print("never");
let x = 1.5e+;
//! no number
//@ 2:9
//--- a number with a large exponent sign
let x = 2E3;
//@ 1:9
//--- an integer that is too large
let x = 9223372036854775808;
//! 64 bits
//@ 1:9
//--- two points in a number
let x = 1.2.3;
//@ 1:13
//--- a range of floating point numbers as a case
switch 1.5 { 1.0..2.0 => 1, _ => 2 }
//! range of integers
//--- import of what there isn't
import "no such module" as o;
//! no module
//@ 1:8
//--- import in a block
if true { import "other" as o; }
//! outside of blocks
//@ 1:11
//--- import of a name that is computed
import "oth" + "er" as o;
//@ 1:14
//--- a module that is imported nowhere
let x = 1;
x + o::Y
//! `import`
//@ 2:5
//--- a function of such a module
print(o::f(1));
//@ 1:7
//--- export of what there isn't
let x = 1;
export y;
//! variable
//@ 2:8
//--- export in a function
fn f() { export const X = 1; }
//! outside of blocks
//@ 1:10
//--- a computed constant that functions can't see
const X = print("x");
fn f() { global::X }
f()
//! global::
//@ 2:10
//--- a string in single quotes
let x = 'hello';
//! double quotes
//@ 1:9
//--- null
let x = null;
//! `null` is reserved and has no meaning: write `()`
//@ 1:9
//--- eval
let x = 1;
eval("x + 1");
//! eval
//@ 2:1
//--- an unknown variable
let count = 1;
print(coumt);
//! variable
//@ 2:7
//--- a variable after its block
{ let inner = 1; }
print(inner);
//@ 2:7
//--- a variable of the top level in a function
let x = 1;
fn f() { x }
f()
//@ 2:10
//--- a constant assigned
const X = 1;
X = 2;
//! constant
//@ 2
//--- a part of a constant assigned
const M = #{ a: 1 };
M.a = 2;
//! constant
//@ 2
//--- an unclosed brace
fn f() {
    print(1);
//@ 1:8
//--- an unclosed bracket
let a = [1, 2;
//@ 1
//--- an unclosed parenthesis
print((1 + 2;
//@ 1
//--- a brace too many
print(1);
}
//@ 2:1
//--- an unclosed string
let x = 1;
let s = "abc;
let y = 2;
//@ 2:9
//--- an unclosed comment
let x = 1;
/* never closed
let y = 2;
//@ 2:1
//--- an unclosed character
let c = 'a;
//@ 1:9
//--- an assignment as condition
let x = 1;
if x = 2 { print("two"); }
//@ 2
//--- a number that is too large
let x = 9223372036854775808;
//@ 1:9
//--- a missing semicolon
let x = 1
let y = 2;
//@ 2:1
//--- a missing operand
let x = 1 + ;
//@ 1:13
//--- break outside of a loop
print(1);
break;
//@ 2:1
//--- continue outside of a loop
continue;
//@ 1:1
//--- a reserved word
let match = 1;
//! `match`
//@ 1:5
//--- a keyword as a name
let if = 1;
//@ 1:5
//--- a reserved sign
let x = 1;
if x === 1 { }
//! write `==`
//@ 2:6
//--- an unknown escape
let s = "a\q";
//@ 1
//--- a function inside of a block
if true {
    fn f() { 1 }
}
//@ 2:5
//--- a function declared twice
fn f(a) { 1 }
fn f(b) { 2 }
//@ 2
//--- a parameter repeated
fn f(a, a) { a }
//@ 1:9
//--- assigned to a number
1 = 2;
//@ 1
//--- assigned to a call
fn f() { 1 }
f() = 2;
//@ 2
//--- let without a name
let = 5;
//@ 1:5
//--- an arm without an arrow
switch 1 { 1 "one" }
//@ 1:14
//--- a default with a condition
switch 1 { 1 => 1, _ if true => 2 }
//@ 1
//--- try without catch
try { print(1); }
print(2);
//@ 2:1
//--- a strange character
let x = 1 ¤ 2;
//@ 1:11
//--- for without in
for x of [1] { }
//@ 1:7
//--- several errors
fn f(a b) { a }
fn g() {
    let x = ;
    if x = 1 { x } else { x }
    x
}
let y = 1 +;
print(y)
//@ 1:8
//@ 3:13
//@ 4:10
//@ 7:12
//--- the text ends too soon
let x =
//! expression
//@ 2:1
//--- the text ends in an open call
let a = [1];
a.push(2
//! `)`
//@ 3:1
//--- a name of the compiler's own
let anon$1 = 1;
//! '$'
//@ 1:9
//--- a method of such a name
[1].len$();
//! '$'
//@ 1:8
//--- a number one above 64 bits
18446744073709551616
//! fit 64 bits
//@ 1:1
//--- a loop variable and its counter with one name
for (x, x) in [1] { print(x); }
//! this variable is repeated
//@ 1:9
//--- a global constant that is declared twice
const X = 1;
const X = 2;
fn f() { global::X }
f()
//! global::
//@ 3:10
//--- a name repeated in an object map
let m = #{ a: 1, b: 2, a: 3 };
//! property is repeated
//@ 1:24
//--- a name and a text repeated in an object map
let m = #{
    a: 1,
    "a": 2,
};
//@ 3:5
//--- a default before others
switch 1 { 2 => 3, _ => 1, 4 => 5 }
//! `_`
//@ 1:20
//--- a default among others of several lines
switch 1 {
    _ => 1,
    2 => 3,
}
//@ 2:5
//--- a default repeated
switch 1 { _ => 2, _ => 3 }
//! repeated
//@ 1:20
//--- a unit case repeated
switch 1 { () => 1, () => 2 }
//! repeated
//@ 1:21
//--- a unit as an end of a range
switch 1 { 1..() => 1 }
//@ 1
//--- a variable with the name of a function of the language
let print = 1;
//! reserved
//@ 1:5
//--- a constant with the name of a function of the language
const debug = 1;
//! reserved
//@ 1:7
//--- type_of as a variable
let type_of = 1;
//@ 1:5
//--- eval as a variable
let eval = 1;
//@ 1:5
//--- Fn as a variable
let Fn = 1;
//@ 1:5
//--- is_shared as a variable
let is_shared = 1;
//@ 1:5
//--- is_def_fn as a variable
let is_def_fn = 1;
//@ 1:5
//--- a loop over a name of a function of the language
for call in [1] { }
//! reserved
//@ 1:5
//--- a counter with such a name
for (x, curry) in [1] { }
//@ 1:9
//--- a parameter with such a name
fn f(a, print) { a }
//! reserved
//@ 1:9
//--- a parameter of a closure with such a name
let f = |is_def_var| 1;
//@ 1:10
//--- a fault with such a name
try { f(); } catch (debug) { }
//@ 1:21
//--- a function is_def_fn
fn is_def_fn(name, count) { true }
//! reserved
//@ 1:4
//--- a function is_def_var
fn is_def_var(name) { true }
//@ 1:4
//--- a function is_shared
fn is_shared(x) { true }
//@ 1:4
//--- a function Fn
fn Fn(x) { x }
//@ 1:4
//--- a function eval
fn eval(x) { x }
//@ 1:4
//--- a function type_of
private fn type_of(x) { x }
//@ 1:12
//--- a function call
fn call(f) { f }
//@ 1:4
//--- a method curry
fn int.curry(x) { x }
//@ 1:8
//--- try as the value of a variable
let r = try { 1 } catch { 2 };
//! `try` is a statement
//@ 1:9
//--- try as an argument
print(try { 1 } catch (e) { 2 });
//@ 1:7
//--- try as an operand
let r = 1 + try { 1 } catch { 2 };
//@ 1:13
//--- an unknown variable that is like a function's name
fn double(x) { x * 2 }
print(doubel);
//@ 2:7
//--- a function of the library is no value
let f = len;
//@ 1:9
//--- a method of a script is no value
fn int.twice() { this * 2 }
let f = twice;
//@ 2:9
