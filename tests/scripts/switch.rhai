//--- integers
fn name(n) { switch n { 1 => "one", 2 => "two", _ => "many" } }
print([name(1), name(2), name(3)]);
//= ["one", "two", "many"]
//--- several values for an arm
fn kind(n) { switch n { 1 | 3 | 5 => "odd", 2 | 4 => "even", _ => "?" } }
print([kind(1), kind(4), kind(5), kind(6)]);
//= ["odd", "even", "odd", "?"]
//--- strings
fn value(text) { switch text { "a" => 1, "b" => 2, _ => 0 } }
print([value("a"), value("b"), value("c")]);
//= [1, 2, 0]
//--- characters
fn is_vowel(c) { switch c { 'a' | 'e' | 'i' | 'o' | 'u' => true, _ => false } }
print([is_vowel('a'), is_vowel('b')]);
//= [true, false]
//--- truth values
print(switch 1 < 2 { true => "yes", false => "no" });
//= yes
//--- ranges
fn grade(n) {
    switch n {
        0..50 => "low",
        50..=90 => "middle",
        91..=100 => "high",
        _ => "none",
    }
}
print([grade(0), grade(49), grade(50), grade(90), grade(100), grade(101)]);
//= ["low", "low", "middle", "middle", "high", "none"]
//--- a value before a range
print(switch 5 { 5 => "five", 0..10 => "digit", _ => "other" });
print(switch 6 { 5 => "five", 0..10 => "digit", _ => "other" });
//= five
//= digit
//--- conditions
fn test(n, ready) {
    switch n {
        1 if ready => "ready",
        1 => "not ready",
        _ => "other",
    }
}
print([test(1, true), test(1, false), test(2, true)]);
//= ["ready", "not ready", "other"]
//--- a condition of a range
fn test(n) {
    switch n {
        0..10 if n % 2 == 0 => "even digit",
        0..10 => "odd digit",
        _ => "large",
    }
}
print([test(4), test(5), test(40)]);
//= ["even digit", "odd digit", "large"]
//--- no arm
let x = switch 3 { 1 => "one" };
print(x == ());
//= true
//--- blocks as arms
let log = [];
switch 2 {
    1 => { log.push("one"); }
    2 => { log.push("two"); log.push("done"); }
    _ => log.push("other"),
}
print(log);
//= ["two", "done"]
//--- another type
print(switch "1" { 1 => "integer", _ => "no integer" });
//= no integer
//--- below zero
print(switch -1 { -1 => "minus one", _ => "other" });
//= minus one
//--- nested
fn both(a, b) {
    switch a {
        0 => switch b { 0 => "00", _ => "01" },
        _ => switch b { 0 => "10", _ => "11" },
    }
}
print([both(0, 0), both(0, 1), both(1, 0), both(1, 1)]);
//= ["00", "01", "10", "11"]
//--- the subject is computed once
fn noted(x) { print("once"); x }
switch noted(2) { 1 => print("one"), 2 => print("two"), _ => print("other") }
//= once
//= two
//--- an arm that leaves a loop
let n = 0;
loop {
    n += 1;
    switch n { 3 => break, _ => continue }
}
print(n);
//= 3
//--- unit
fn kind(x) { switch x { () => "unit", 0 => "zero", _ => "other" } }
print([kind(()), kind(0), kind(1)]);
//= ["unit", "zero", "other"]
//--- unit among others
fn is_false(x) { switch x { () | false | 0 | "" => true, _ => false } }
print([is_false(()), is_false(false), is_false(0), is_false(""), is_false(1), is_false("a")]);
//= [true, true, true, true, false, false]
//--- unit with a condition
fn kind(x, strict) { switch x { () if strict => "nothing", () => "unit", _ => "some" } }
print([kind((), true), kind((), false), kind(1, true)]);
//= ["nothing", "unit", "some"]
//--- a missing name of an object map
let m = #{ a: 1 };
print(switch m.b { () => "missing", _ => "there" });
//= missing
//--- try as an arm
switch 1 {
    1 => try { throw "two"; } catch (e) { print(e); }
    _ => print("other"),
}
//= two
//--- a shared variable
let x = 1;
let f = || x;
print(switch x { () => "unit", _ => "other" });
x = ();
print(switch x { () => "unit", _ => "other" });
//= other
//= unit
