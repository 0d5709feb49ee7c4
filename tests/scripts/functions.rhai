//--- the last value
fn add(a, b) { a + b }
print(add(1, 2));
//= 3
//--- return
fn sign_of(n) {
    if n < 0 { return "minus"; }
    if n > 0 { return "plus"; }
    "zero"
}
print([sign_of(-5), sign_of(5), sign_of(0)]);
//= ["minus", "plus", "zero"]
//--- without a value
fn nothing() { }
fn nothing_returned() { return; }
print(nothing() == ());
print(nothing_returned() == ());
//= true
//= true
//--- before its declaration
print(later(20));
fn later(x) { x + 1 }
//= 21
//--- recursion
fn fib(n) { if n < 2 { n } else { fib(n - 1) + fib(n - 2) } }
print(fib(15));
//= 610
//--- mutual recursion
fn even(n) { if n == 0 { true } else { odd(n - 1) } }
fn odd(n) { if n == 0 { false } else { even(n - 1) } }
print(even(10));
print(odd(10));
//= true
//= false
//--- arguments are copies
fn change(list) { list.push(4); list }
let a = [1, 2, 3];
print(change(a));
print(a);
//= [1, 2, 3, 4]
//= [1, 2, 3]
//--- parameters may be assigned
fn half(n) { n /= 2; n }
let x = 10;
print(half(x));
print(x);
//= 5
//= 10
//--- its own variables
let x = 1;
fn f() { let x = 2; x += 1; x }
print(f());
print(x);
//= 3
//= 1
//--- arguments from left to right
fn noted(x) { print(x); x }
fn three(a, b, c) { a + b + c }
print(three(noted(1), noted(2), noted(3)));
//= 1
//= 2
//= 3
//= 6
//--- nested calls
fn inc(x) { x + 1 }
print(inc(inc(inc(0))));
//= 3
//--- private
private fn helper(x) { x * 2 }
fn outer(x) { helper(x) + 1 }
print(outer(5));
//= 11
//--- greatest common divisor
fn gcd(a, b) { while b != 0 { let t = a % b; a = b; b = t; } a }
print(gcd(48, 18));
print(gcd(17, 5));
//= 6
//= 1
//--- towers
fn move_tower(n, from, to, via) {
    if n == 0 { return 0; }
    move_tower(n - 1, from, via, to) + 1 + move_tower(n - 1, via, to, from)
}
print(move_tower(6, "a", "b", "c"));
//= 63
//--- return from nested loops
fn find_pair(sum) {
    for a in 1..10 {
        for b in a..10 {
            if a * b == sum { return [a, b]; }
        }
    }
    ()
}
print(find_pair(21));
print(find_pair(97) == ());
//= [3, 7]
//= true
//--- return at the top level ends the script
print("before");
if true { return 7; }
print("after");
//= before
//= 7
//--- a deep call
fn down(n) { if n == 0 { 0 } else { 1 + down(n - 1) } }
print(down(40));
//= 40
//--- fizz buzz
fn word(n) {
    switch n % 15 {
        0 => "FizzBuzz",
        3 | 6 | 9 | 12 => "Fizz",
        5 | 10 => "Buzz",
        _ => n.to_string(),
    }
}
let line = "";
for n in 1..=15 { line += word(n) + " "; }
line.trim();
print(line);
//= 1 2 Fizz 4 Buzz Fizz 7 8 Fizz Buzz 11 Fizz 13 14 FizzBuzz

//--- functions that are absent
for name in ["sleep", "timestamp", "tag", "set_tag", "get_fn_metadata_list", "parse_decimal", "to_decimal"] {
    try { Fn(name).call("1"); } catch (e) { if e.message.contains(name) { print(name); } }
}
//= sleep
//= timestamp
//= tag
//= set_tag
//= get_fn_metadata_list
//= parse_decimal
//= to_decimal
