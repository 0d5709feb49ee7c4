//--- 40 + 2
40 + 2
//= 42
//--- 40 + 2;
40 + 2;
//= 42
//--- 1 + 2 * 3 - 4 / 2
1 + 2 * 3 - 4 / 2
//= 5
//--- (1 + 2) * 3
(1 + 2) * 3
//= 9
//--- -3 - -4
-3 - -4
//= 1
//--- 2 - 3 - 4
2 - 3 - 4
//= -5
//--- 7 % 4
7 % 4
//= 3
//--- 0xff + 0o17 + 0b101 + 1_000
0xff + 0o17 + 0b101 + 1_000
//= 1275
//--- 0xffff_ffff_ffff_ffff
0xffff_ffff_ffff_ffff
//= -1
//--- 1 < 2 && 2 < 1 || true
1 < 2 && 2 < 1 || true
//= true
//--- !(1 == 1)
!(1 == 1)
//= false
//--- let x = 5; let y = x * 2; y + x
let x = 5; let y = x * 2; y + x
//= 15
//--- let x = 1; x += 4; x *= 3; x
let x = 1; x += 4; x *= 3; x
//= 15
//--- let x; x
let x; x
//--- const X = 5; X + 1
const X = 5; X + 1
//= 6
//--- if 1 < 2 { 3 } else { 4 }
if 1 < 2 { 3 } else { 4 }
//= 3
//--- if false { 3 } else if false { 4 } else { 5 }
if false { 3 } else if false { 4 } else { 5 }
//= 5
//--- if false { 3 }
if false { 3 }
//--- let x = if true { 1 } else { 2 }; x
let x = if true { 1 } else { 2 }; x
//= 1
//--- let i = 0; let s = 0; while i < 10 { i += 1; if i % 2 == 0 { contin...
let i = 0; let s = 0; while i < 10 { i += 1; if i % 2 == 0 { continue; } s += i; } s
//= 25
//--- let i = 0; loop { i += 1; if i > 5 { break; } } i
let i = 0; loop { i += 1; if i > 5 { break; } } i
//= 6
//--- let i = 0; loop { i += 1; if i > 5 { break i * 10; } }
let i = 0; loop { i += 1; if i > 5 { break i * 10; } }
//= 60
//--- let i = 0; 1 + loop { i += 1; if i > 5 { break i * 10; } }
let i = 0; 1 + loop { i += 1; if i > 5 { break i * 10; } }
//= 61
//--- let i = 0; do { i += 1; } while i < 3; i
let i = 0; do { i += 1; } while i < 3; i
//= 3
//--- let i = 0; do { i += 1; } until i == 4; i
let i = 0; do { i += 1; } until i == 4; i
//= 4
//--- let s = 0; for i in 0..5 { s += i; } s
let s = 0; for i in 0..5 { s += i; } s
//= 10
//--- let s = 0; for i in 0..=5 { s += i; } s
let s = 0; for i in 0..=5 { s += i; } s
//= 15
//--- let s = 0; for x in [3, 4, 5] { s += x; } s
let s = 0; for x in [3, 4, 5] { s += x; } s
//= 12
//--- let s = 0; for (x, i) in [3, 4, 5] { s += x * i; } s
let s = 0; for (x, i) in [3, 4, 5] { s += x * i; } s
//= 14
//--- let s = ""; for c in "abc" { s += c; s += "-"; } s
let s = ""; for c in "abc" { s += c; s += "-"; } s
//= a-b-c-
//--- for i in 0..5 { if i == 3 { break; } }
for i in 0..5 { if i == 3 { break; } }
//--- let s = 0; for i in 0..5 { for j in 0..5 { if j > i { break; } s +=...
let s = 0; for i in 0..5 { for j in 0..5 { if j > i { break; } s += 1; } } s
//= 15
//--- let x = for i in 0..5 { if i == 3 { break i; } }; x
let x = for i in 0..5 { if i == 3 { break i; } }; x
//= 3
//--- fn add(a, b) { a + b } add(3, 4)
fn add(a, b) { a + b } add(3, 4)
//= 7
//--- fn add(a, b) { return a + b; } add(3, 4)
fn add(a, b) { return a + b; } add(3, 4)
//= 7
//--- fn fact(n) { if n < 2 { 1 } else { n * fact(n - 1) } } fact(10)
fn fact(n) { if n < 2 { 1 } else { n * fact(n - 1) } } fact(10)
//= 3628800
//--- fn fib(n) { if n < 2 { n } else { fib(n-1) + fib(n-2) } } fib(12)
fn fib(n) { if n < 2 { n } else { fib(n-1) + fib(n-2) } } fib(12)
//= 144
//--- fn even(n) { if n == 0 { true } else { odd(n - 1) } } fn odd(n) { i...
fn even(n) { if n == 0 { true } else { odd(n - 1) } } fn odd(n) { if n == 0 { false } else { even(n - 1) } } even(10)
//= true
//--- fn f(x) { for i in 0..10 { if i == x { return i * 100; } } -1 } f(3...
fn f(x) { for i in 0..10 { if i == x { return i * 100; } } -1 } f(3) + f(20)
//= 299
//--- "a\n\x41\u0042" + 'c'
"a\n\x41\u0042" + 'c'
//= a
//= ABc
//--- let x = 5; `x is ${x} and ${x + 1}.`
let x = 5; `x is ${x} and ${x + 1}.`
//= x is 5 and 6.
//--- `a${ let y = 3; y * 2 }b${`c${1}`}`
`a${ let y = 3; y * 2 }b${`c${1}`}`
//= a6bc1
//--- [1, 2, 3]
[1, 2, 3]
//= [1, 2, 3]
//--- let a = [1, 2, 3]; a[1]
let a = [1, 2, 3]; a[1]
//= 2
//--- let a = [1, 2, 3]; a[-1]
let a = [1, 2, 3]; a[-1]
//= 3
//--- let a = [1, 2, 3]; a[1] = 7; a[0] += 10; a
let a = [1, 2, 3]; a[1] = 7; a[0] += 10; a
//= [11, 7, 3]
//--- let a = [1, [2, 3]]; a[1][0]
let a = [1, [2, 3]]; a[1][0]
//= 2
//--- let a = []; a.push(1); push(a, 2); a.len() + len(a)
let a = []; a.push(1); push(a, 2); a.len() + len(a)
//= 4
//--- let a = [1, 2]; let x = a.pop(); x + a.len()
let a = [1, 2]; let x = a.pop(); x + a.len()
//= 3
//--- let m = #{ a: 1, "b c": 2 }; m.a + m["b c"]
let m = #{ a: 1, "b c": 2 }; m.a + m["b c"]
//= 3
//--- let m = #{}; m.x = 5; m.x += 1; m
let m = #{}; m.x = 5; m.x += 1; m
//= #{"x": 6}
//--- let m = #{ a: #{ b: [7, 8] } }; m.a.b[1]
let m = #{ a: #{ b: [7, 8] } }; m.a.b[1]
//= 8
//--- [5, 6, 7][1]
[5, 6, 7][1]
//= 6
//--- (1 + 2).to_string() + "!"
(1 + 2).to_string() + "!"
//= 3!
//--- try { 1 / 0 } catch (e) { 7 }
try { 1 / 0 } catch (e) { 7 }
//--- let r = 0; try { r = 1 / 0; } catch (e) { r = e.message; } r
let r = 0; try { r = 1 / 0; } catch (e) { r = e.message; } r
//= Division by zero: 1 / 0
//--- let r = 0; try { throw 42; } catch (e) { r = e + 1; } r
let r = 0; try { throw 42; } catch (e) { r = e + 1; } r
//= 43
//--- let r = 0; try { let a = 1; try { throw a; } catch (x) { throw x +...
let r = 0; try { let a = 1; try { throw a; } catch (x) { throw x + 1; } } catch (y) { r = y * 10; } r
//= 20
//--- fn f(x) { throw x; } let r = 0; try { f(7); } catch (e) { r = e; } r
fn f(x) { throw x; } let r = 0; try { f(7); } catch (e) { r = e; } r
//= 7
//--- let r = 0; for i in 0..5 { try { if i == 3 { break; } r += 1; } cat...
let r = 0; for i in 0..5 { try { if i == 3 { break; } r += 1; } catch { r = 100; } } r
//= 3
//--- let r = 0; for i in 0..5 { try { if i == 3 { throw 1; } r += 1; } c...
let r = 0; for i in 0..5 { try { if i == 3 { throw 1; } r += 1; } catch { continue; } r += 10; } r
//= 44
//--- try { let a = 1; let b = 2; throw 3; } catch (e) { let c = e; } let...
try { let a = 1; let b = 2; throw 3; } catch (e) { let c = e; } let d = 9; d
//= 9
//--- switch 3 { 1 => 10, 2 | 3 => 20, _ => 30 }
switch 3 { 1 => 10, 2 | 3 => 20, _ => 30 }
//= 20
//--- switch 9 { 1 => 10, 5..=9 => { 40 } _ => 30 }
switch 9 { 1 => 10, 5..=9 => { 40 } _ => 30 }
//= 40
//--- switch "b" { "a" => 1, "b" => 2 }
switch "b" { "a" => 1, "b" => 2 }
//= 2
//--- switch 'z' { 'a' => 1 }
switch 'z' { 'a' => 1 }
//--- let x = 0; switch true { true => x = 5, false => x = 6 } x
let x = 0; switch true { true => x = 5, false => x = 6 } x
//= 5
//--- let n = 0; for i in 0..6 { switch i { 3 => break, 1 => continue, _...
let n = 0; for i in 0..6 { switch i { 3 => break, 1 => continue, _ => n += 1 } } n
//= 2
//--- 1 ?? 2
1 ?? 2
//= 1
//--- () ?? 2
() ?? 2
//= 2
//--- let x; let y = x ?? 5 + 1; y
let x; let y = x ?? 5 + 1; y
//= 6
//--- fn f(x) { x * 2 } let p = Fn("f"); p.call(21)
fn f(x) { x * 2 } let p = Fn("f"); p.call(21)
//= 42
//--- fn f(x, y) { x - y } let p = Fn("f").curry(50); call(p, 8)
fn f(x, y) { x - y } let p = Fn("f").curry(50); call(p, 8)
//= 42
//--- let f = |x, y| x * y; f.call(6, 7)
let f = |x, y| x * y; f.call(6, 7)
//= 42
//--- let k = 10; let f = |x| { let z = x + k; z }; f.call(5)
let k = 10; let f = |x| { let z = x + k; z }; f.call(5)
//= 15
//--- let f = || 9; f.call()
let f = || 9; f.call()
//= 9
//--- let x = 1; { let x = 2; x += 1; } x
let x = 1; { let x = 2; x += 1; } x
//= 1
//--- let x = 1; let x = x + 1; x
let x = 1; let x = x + 1; x
//= 2
//--- let x = { let y = 3; y * y }; x
let x = { let y = 3; y * y }; x
//= 9
//--- // a comment 1 /* an /* inner */ one */ + 1
// a comment
1 /* an /* inner */ one */ + 1
//= 2
//--- true & false | true ^ true
true & false | true ^ true
//= false
//--- Fn("f").curry(3).call(4); fn f(a, b) { a * b }
Fn("f").curry(3).call(4);
fn f(a, b) { a * b }
//= 12
//--- [1, 2].len().to_string().len()
[1, 2].len().to_string().len()
//= 1
//--- len([[1, 2], [3]][0])
len([[1, 2], [3]][0])
//= 2
//--- ((((((((((1))))))))))
((((((((((1))))))))))
//= 1
//--- if true {if true {if true {if true {if true {if true {if true {if t...
if true {if true {if true {if true {if true {if true {if true {if true {if true {if true {if true {if true {if true {if true {if true {if true {if true {if true {if true {if true {if true {if true {if true {if true {if true {if true {if true {if true {if true {if true {5}}}}}}}}}}}}}}}}}}}}}}}}}}}}}}
//= 5
//--- let x = 7; if x > 5 && x < 10 { "in" } else { "out" }
let x = 7; if x > 5 && x < 10 { "in" } else { "out" }
//= in
//--- let x = 5; x = x + 1; x -= 2; x
let x = 5; x = x + 1; x -= 2; x
//= 4
//--- let t = ""; for (c, i) in "xyz" { t += `${i}${c}`; } t
let t = ""; for (c, i) in "xyz" { t += `${i}${c}`; } t
//= 0x1y2z
//--- let n = 27; let steps = 0; while n != 1 { n = if n % 2 == 0 { n / 2...
let n = 27; let steps = 0; while n != 1 { n = if n % 2 == 0 { n / 2 } else { 3 * n + 1 }; steps += 1; } steps
//= 111
//--- // Functions as values fn twice(f, x) { f.call(f.call(x)) } fn fold...
// Functions as values
fn twice(f, x) { f.call(f.call(x)) }
fn fold(list, start, f) {
    let sum = start;
    for x in list { sum = f.call(sum, x); }
    sum
}
let add = |a, b| a + b;
let offset = 3;
let shift = |x| x + offset;
[twice(shift, 10), fold([1, 2, 3, 4], 0, add), fold(1..=5, 1, |a, b| a * b), Fn("twice").curry(shift).call(0)]
//= [16, 10, 120, 6]
//--- // How often each letter stands in a text let counts = #{}; for let...
// How often each letter stands in a text
let counts = #{};
for letter in "mississippi" {
    let key = letter.to_string();
    counts[key] = (counts[key] ?? 0) + 1;
}
counts
//= #{"i": 4, "m": 1, "p": 2, "s": 4}
//--- fn gcd(a, b) { while b != 0 { let rest = a % b; a = b; b = rest; }...
fn gcd(a, b) {
    while b != 0 {
        let rest = a % b;
        a = b;
        b = rest;
    }
    return a;
}
fn check(x) {
    if x < 0 { throw `negative: ${x}`; }
    x
}
let result = [];
for pair in [[12, 18], [17, 5], [-4, 6], [100, 75]] {
    try {
        result.push(gcd(check(pair[0]), pair[1]));
    } catch (why) {
        result.push(why);
    }
}
result
//= [6, 1, "negative: -4", 25]
//--- // How many ways there are to put 5 queens on a board fn fits(queen...
// How many ways there are to put 5 queens on a board
fn fits(queens, row, column) {
    for (other, at) in queens {
        if other == column || other - column == row - at || column - other == row - at {
            return false;
        }
    }
    true
}
fn ways(queens, size) {
    let row = queens.len();
    if row == size { return 1; }
    let sum = 0;
    for column in 0..size {
        if fits(queens, row, column) {
            let more = queens;
            more.push(column);
            sum += ways(more, size);
        }
    }
    sum
}
ways([], 5)
//= 10
//--- // The primes below a number fn primes(limit) { let marks = []; for...
// The primes below a number
fn primes(limit) {
    let marks = [];
    for _ in 0..limit { marks.push(true); }
    let found = [];
    for p in 2..limit {
        if !marks[p] { continue; }
        found.push(p);
        let multiple = p * p;
        while multiple < limit {
            marks[multiple] = false;
            multiple += p;
        }
    }
    found
}
let found = primes(50);
`${len(found)} primes: ${found}`
//= 15 primes: [2, 3, 5, 7, 11, 13, 17, 19, 23, 29, 31, 37, 41, 43, 47]
//--- // Insertion sort, in place let a = [5, 2, 9, 1, 5, 6, -3]; let i =...
// Insertion sort, in place
let a = [5, 2, 9, 1, 5, 6, -3];
let i = 1;
while i < a.len() {
    let x = a[i];
    let j = i - 1;
    while j >= 0 && a[j] > x {
        a[j + 1] = a[j];
        j -= 1;
    }
    a[j + 1] = x;
    i += 1;
}
a
//= [-3, 1, 2, 5, 5, 6, 9]
//--- // FizzBuzz, as one text let out = ""; for i in 1..=15 { let word =...
// FizzBuzz, as one text
let out = "";
for i in 1..=15 {
    let word = switch [i % 3 == 0, i % 5 == 0] {
        _ => if i % 15 == 0 { "FizzBuzz" } else if i % 3 == 0 { "Fizz" } else if i % 5 == 0 { "Buzz" } else { i.to_string() }
    };
    out += if out == "" { word } else { ` ${word}` };
}
out
//= 1 2 Fizz 4 Buzz Fizz 7 8 Fizz Buzz 11 Fizz 13 14 FizzBuzz
//--- // This Rhai script calculates the n-th Fibonacci number using a //...
// This Rhai script calculates the n-th Fibonacci number using a
// really dumb algorithm to test the speed of the scripting engine.

const TARGET = 10;
const REPEAT = 5;
const ANSWER = 55;

fn print(text) {}

fn fib(n) {
    if n < 2 {
        n
    } else {
        fib(n-1) + fib(n-2)
    }
}

print(`Running Fibonacci(${TARGET}) x ${REPEAT} times...`);
print("Ready... Go!");

let result;

for n in 0..REPEAT {
    result = fib(TARGET);
}

print(`Fibonacci number #${TARGET} = ${result}`);

if result != ANSWER {
    print(`The answer is WRONG! Should be ${ANSWER}!`);
}

`Fibonacci number #${TARGET} = ${result}`
//= Fibonacci number #10 = 55
//--- #!/usr/bin/env grain 40 + 2
#!/usr/bin/env grain
40 + 2
//= 42
//--- #"C:\new"#
#"C:\new"#
//= C:\new
//--- ##"say "#hi"# "##
##"say "#hi"# "##
//= say "#hi"# 
//--- #"two lines"#
#"two
lines"#
//= two
//= lines
//--- let x = "hello, \ world"; x
let x = "hello, \
         world"; x
//= hello, world
//--- let x = "a\ b"; x
let x = "a\
           b"; x
//= a  b
//--- `two lines`
`two
lines`
//= two
//= lines
//--- ` first line`
`
first line`
//= first line
//--- `a``b`
`a``b`
//= a`b
//--- "say ""hi"""
"say ""hi"""
//= say "hi"
//--- '\''.to_string() + '\x41' + "\U0001F600"
'\''.to_string() + '\x41' + "\U0001F600"
//= 'A😀
//--- /// a doc comment fn f() { 7 } /** another */ f()
/// a doc comment
fn f() { 7 } /** another */ f()
//= 7
//--- fn f(x) { switch x { 1 if x > 5 => "no", 1 => "one", 2..5 if x == 3...
fn f(x) { switch x { 1 if x > 5 => "no", 1 => "one", 2..5 if x == 3 => "three", _ => "other" } } `${f(1)} ${f(3)} ${f(4)} ${f(9)}`
//= one three other other
//--- let y = 5; switch 1 { 1 if y < 0 => 10, 1 if y > 3 => 20, _ => 30 }
let y = 5; switch 1 { 1 if y < 0 => 10, 1 if y > 3 => 20, _ => 30 }
//= 20
//--- let y = 1; switch 7 { 7 if y > 3 => 1, 0..=9 => 2, _ => 3 }
let y = 1; switch 7 { 7 if y > 3 => 1, 0..=9 => 2, _ => 3 }
//= 3
//--- switch 4 { 0..=9 if false => 1, 3..5 if true => 2, _ => 3 }
switch 4 { 0..=9 if false => 1, 3..5 if true => 2, _ => 3 }
//= 2
//--- let r = 0; try { try { throw 7; } catch { throw; } } catch (e) { r...
let r = 0; try { try { throw 7; } catch { throw; } } catch (e) { r = e; } r
//= 7
//--- let r = 0; try { try { throw 7; } catch (x) { x = 0; throw; } } cat...
let r = 0; try { try { throw 7; } catch (x) { x = 0; throw; } } catch (e) { r = e; } r
//= 7
//--- let r = 0; try { throw; } catch (e) { r = e; } r
let r = 0; try { throw; } catch (e) { r = e; } r
//--- let i = 0; let s = 0; do { i += 1; if i == 2 { continue; } s += i;...
let i = 0; let s = 0; do { i += 1; if i == 2 { continue; } s += i; } while i < 4; s
//= 8
//--- let x = loop { break 5; }; x
let x = loop { break 5; }; x
//= 5
//--- let r = []; for (x, i) in 5..8 { r.push(x * 10 + i); } r
let r = []; for (x, i) in 5..8 { r.push(x * 10 + i); } r
//= [50, 61, 72]
//--- 1 + 2 == 3 && !(4 < 3)
1 + 2 == 3 && !(4 < 3)
//= true
//--- 8 / 2 / 2
8 / 2 / 2
//= 2
//--- -2 + 3
-2 + 3
//= 1
//--- +5
+5
//= 5
//--- (1..4) == (1..4)
(1..4) == (1..4)
//= true
//--- let x = 10; { let x = x + 1; } x
let x = 10; { let x = x + 1; } x
//= 10
//--- let f = |x| x + 1; let g = |y| f.call(y) * 2; g.call(4)
let f = |x| x + 1; let g = |y| f.call(y) * 2; g.call(4)
//= 10
//--- fn f(x) { x } fn f(x, y) { x + y } f(1) + f(2, 3)
fn f(x) { x } fn f(x, y) { x + y } f(1) + f(2, 3)
//= 6
//--- fn int.twice() { this * 2 } 5
fn int.twice() { this * 2 } 5
//= 5
//--- let a = 1; let b = a; b += 1; a
let a = 1; let b = a; b += 1; a
//= 1
//--- return 5; 6
return 5; 6
//= 5
//--- let x = 0; while true { x += 1; if x == 3 { return x; } }
let x = 0; while true { x += 1; if x == 3 { return x; } }
//= 3
//--- let m = #{ "a": 1, b: 2, }; [m.a, m["b"],]
let m = #{ "a": 1, b: 2, }; [m.a, m["b"],]
//= [1, 2]
//--- let n = 0; for c in "héllo" { n += 1; } n
let n = 0; for c in "héllo" { n += 1; } n
//= 5
//--- [1, for i in 0..5 { switch i { 3 => { break i * 2; } _ => {} } }, 2]
[1, for i in 0..5 { switch i { 3 => { break i * 2; } _ => {} } }, 2]
//= [1, 6, 2]
//--- fn f() { [1, for i in 0..3 { try { return i + 40; } catch { } }] } f()
fn f() { [1, for i in 0..3 { try { return i + 40; } catch { } }] } f()
//= 40
//--- let r = 0; try { for i in 0..3 { for j in 0..3 { if j == 1 { throw...
let r = 0; try { for i in 0..3 { for j in 0..3 { if j == 1 { throw i * 10 + j; } } } } catch (e) { r = e; } for k in 0..2 { r += 1; } r
//= 3
//--- let n = 0; let v = loop { switch n { 3 if n > 2 => break n * 2, 3 =...
let n = 0; let v = loop { switch n { 3 if n > 2 => break n * 2, 3 => 0, _ => n += 1 } }; v
//= 6
//--- let s = ""; for i in 0..3 { s += `${ if i == 1 { continue; } i }`; } s
let s = ""; for i in 0..3 { s += `${ if i == 1 { continue; } i }`; } s
//= 02
//--- let x = 1 + loop { let y = 1 + { break 7; }; }; x
let x = 1 + loop { let y = 1 + { break 7; }; }; x
//= 8
//--- let r = []; for i in 0..4 { let x = loop { try { if i == 2 { throw...
let r = []; for i in 0..4 { let x = loop { try { if i == 2 { throw i; } break 0; } catch (e) { break e * 10; } }; r.push(x); } r
//= [0, 0, 20, 0]
//--- let a = [[1, while true { break; }, 2].len(), { let b = 3; b }]; a
let a = [[1, while true { break; }, 2].len(), { let b = 3; b }]; a
//= [3, 3]
//--- let f = |n| { for i in 0..10 { if i * i > n { return i; } } -1 }; [...
let f = |n| { for i in 0..10 { if i * i > n { return i; } } -1 }; [f.call(5), f.call(50), f.call(500)]
//= [3, 8, -1]
//--- let m = #{ a: switch 2 { 1 => 5, 2 if true => 6, _ => 7 }, b: if fa...
let m = #{ a: switch 2 { 1 => 5, 2 if true => 6, _ => 7 }, b: if false { 1 } }; m
//= #{"a": 6, "b": ()}
//--- let x = (); let y = x ?? { let z = 4; z * z } ?? 1; y
let x = (); let y = x ?? { let z = 4; z * z } ?? 1; y
//= 16
//--- let r = 0; for i in 0..3 { for j in 0..3 { if j > i { continue; } i...
let r = 0; for i in 0..3 { for j in 0..3 { if j > i { continue; } if i == 2 { break; } r += 1; } } r
//= 3
//--- let r = 0; try { let a = 1; { let b = 2; throw a + b; } } catch (e)...
let r = 0; try { let a = 1; { let b = 2; throw a + b; } } catch (e) { let c = e; r = c; } let d = 5; r + d
//= 8
//--- const LIMIT = 5; fn f() { global::LIMIT * 2 } f() + global::LIMIT
const LIMIT = 5; fn f() { global::LIMIT * 2 } f() + global::LIMIT
//= 15
//--- const NAME = "x"; fn f() { `${global::NAME}!` } f()
const NAME = "x"; fn f() { `${global::NAME}!` } f()
//= x!
//--- let a = [[1, 2], [3]]; a[0].len()
let a = [[1, 2], [3]]; a[0].len()
//= 2
//--- let m = #{ list: [] }; m.list.push(1); m.list.push(2); m.list
let m = #{ list: [] }; m.list.push(1); m.list.push(2); m.list
//= [1, 2]
//--- let a = [#{ b: [1, 2, 3] }]; a[0].b[2] = 9; a
let a = [#{ b: [1, 2, 3] }]; a[0].b[2] = 9; a
//= [#{"b": [1, 2, 9]}]
//--- let a = [1, [2, 3]]; a[1][0] += 5; a
let a = [1, [2, 3]]; a[1][0] += 5; a
//= [1, [7, 3]]
//--- let m = #{}; m.x
let m = #{}; m.x
//--- let m = #{ x: () }; m.x?.y
let m = #{ x: () }; m.x?.y
//--- let x; x?.y
let x; x?.y
//--- let x; x?[0]
let x; x?[0]
//--- let m = #{ x: 5 }; m?.x
let m = #{ x: 5 }; m?.x
//= 5
//--- let x; x?.y.z.len() ?? 7
let x; x?.y.z.len() ?? 7
//= 7
//--- fn add(n) { this += n; } let x = 5; x.add(3); x
fn add(n) { this += n; } let x = 5; x.add(3); x
//= 8
//--- fn int.twice() { this * 2 } fn string.twice() { this + this } let a...
fn int.twice() { this * 2 } fn string.twice() { this + this } let a = 4; let b = "x"; `${a.twice()} ${b.twice()}`
//= 8 xx
//--- fn bump() { this.n += 1; } let m = #{ n: 1 }; m.bump(); m.bump(); m.n
fn bump() { this.n += 1; } let m = #{ n: 1 }; m.bump(); m.bump(); m.n
//= 3
//--- fn get() { this.n } let m = #{ n: 4 }; m.get() + 1
fn get() { this.n } let m = #{ n: 4 }; m.get() + 1
//= 5
//--- let x = 1; let f = || x += 1; f.call(); f.call(); x
let x = 1; let f = || x += 1; f.call(); f.call(); x
//= 3
//--- let x = 1; let f = || x; x = 5; f.call()
let x = 1; let f = || x; x = 5; f.call()
//= 5
//--- let n = 0; let inc = |by| { n += by; n }; inc.call(2); inc.call(3); n
let n = 0; let inc = |by| { n += by; n }; inc.call(2); inc.call(3); n
//= 5
//--- let x = 1; is_shared(x)
let x = 1; is_shared(x)
//= false
//--- let x = 1; let f = || x; is_shared(x)
let x = 1; let f = || x; is_shared(x)
//= true
//--- let a = 1; let f = || { let g = || a += 1; g.call(); }; f.call(); a
let a = 1; let f = || { let g = || a += 1; g.call(); }; f.call(); a
//= 2
//--- 2 in [1, 2, 3]
2 in [1, 2, 3]
//= true
//--- "x" in #{ x: 1 }
"x" in #{ x: 1 }
//= true
//--- 5 !in [1, 2, 3]
5 !in [1, 2, 3]
//= true
//--- "ell" in "hello"
"ell" in "hello"
//= true
//--- 2 ** 3 ** 2
2 ** 3 ** 2
//= 512
//--- 1 << 4 | 1
1 << 4 | 1
//= 17
//--- let a = [3, 1, 2]; a.sort(); a
let a = [3, 1, 2]; a.sort(); a
//= [1, 2, 3]
//--- [1, 2, 3].map(|x| x * 2)
[1, 2, 3].map(|x| x * 2)
//= [2, 4, 6]
//--- [1, 2, 3, 4].filter(|x| x % 2 == 0).len()
[1, 2, 3, 4].filter(|x| x % 2 == 0).len()
//= 2
//--- let o = #{ v: 2, f: |x| x * 10 }; o.f.call(4)
let o = #{ v: 2, f: |x| x * 10 }; o.f.call(4)
//= 40
//--- let s = ""; for k in #{ a: 1, b: 2 }.keys() { s += k; } s
let s = ""; for k in #{ a: 1, b: 2 }.keys() { s += k; } s
//= ab
//--- let a = [5, 3, 8, 1]; a.sort(|x, y| y - x); a
let a = [5, 3, 8, 1]; a.sort(|x, y| y - x); a
//= [8, 5, 3, 1]
//--- [1, 2, 3, 4].reduce(|sum, x| sum + x, 10)
[1, 2, 3, 4].reduce(|sum, x| sum + x, 10)
//= 20
//--- let a = [1, 2, 3, 4]; a.map(|x| x * x).filter(|x| x > 3).len()
let a = [1, 2, 3, 4]; a.map(|x| x * x).filter(|x| x > 3).len()
//= 3
//--- [1, 2, 3].some(|x| x > 2) && ![1, 2].all(|x| x > 1)
[1, 2, 3].some(|x| x > 2) && ![1, 2].all(|x| x > 1)
//= true
//--- [4, 5, 6].find_index(|x| x == 5)
[4, 5, 6].find_index(|x| x == 5)
//= 1
//--- let a = [1, 2, 3, 4]; let b = a.retain(|x| x % 2 == 0); `${a} ${b}`
let a = [1, 2, 3, 4]; let b = a.retain(|x| x % 2 == 0); `${a} ${b}`
//= [2, 4] [1, 3]
//--- print("a"); print([1, "b", 'c']); ()
print("a"); print([1, "b", 'c']); ()
//= a
//= [1, "b", 'c']
//--- fn map(f) { 7 } [1].map(|x| x)
fn map(f) { 7 } [1].map(|x| x)
//= 7
