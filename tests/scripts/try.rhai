//--- nothing is thrown
try { print("body"); } catch { print("catch"); }
print("after");
//= body
//= after
//--- thrown and caught
try { print("before"); throw "oh"; print("never"); } catch (e) { print(e); }
print("after");
//= before
//= oh
//= after
//--- any value is thrown
try { throw 42; } catch (e) { print(e + 1); }
try { throw #{ code: 7 }; } catch (e) { print(e.code); }
try { throw [1, 2]; } catch (e) { print(e.len()); }
//= 43
//= 7
//= 2
//--- without a variable
try { throw 1; } catch { print("caught"); }
//= caught
//--- a fault is caught
let x = 0;
try { x = 1 / x; } catch { print("caught"); }
print(x);
//= caught
//= 0
//--- an index out of bounds
let a = [1];
try { a[5] = 1; } catch { print("caught"); }
print(a);
//= caught
//= [1]
//--- out of a function
fn check(n) { if n > 2 { throw "too many: " + n; } n }
try {
    print(check(2));
    print(check(3));
} catch (e) {
    print(e);
}
//= 2
//= too many: 3
//--- out of several calls
fn deep(n) { if n == 0 { throw "bottom"; } deep(n - 1) }
try { deep(10); } catch (e) { print(e); }
//= bottom
//--- nested
try {
    try { throw 1; } catch (e) { print("inner " + e); throw 2; }
} catch (e) {
    print("outer " + e);
}
//= inner 1
//= outer 2
//--- thrown again
try {
    try { throw "first"; } catch { print("seen"); throw; }
} catch (e) {
    print(e);
}
//= seen
//= first
//--- the variable is that of the catch
let e = "mine";
try { throw "other"; } catch (e) { print(e); }
print(e);
//= other
//= mine
//--- variables of the body are gone
let x = 1;
try { let x = 2; let y = 3; throw x + y; } catch (e) { print(e); }
let z = 9;
print([x, z]);
//= 5
//= [1, 9]
//--- in a loop
let out = [];
for i in 0..5 {
    try {
        if i == 1 { continue; }
        if i == 3 { break; }
        if i == 2 { throw "two"; }
        out.push(i);
    } catch (e) { out.push(e); }
}
print(out);
//= [0, "two"]
//--- return inside
fn f() { try { return "body"; } catch { return "catch"; } }
fn g() { try { throw 1; } catch { return "catch"; } "after" }
print([f(), g()]);
//= ["body", "catch"]
//--- an unknown function is caught
try { let x = 1; x.no_such_thing(); } catch { print("caught"); }
//= caught
//--- changes before the throw stay
let a = [];
try { a.push(1); a.push(2); throw (); } catch { a.push(3); }
print(a);
//= [1, 2, 3]
//--- many rounds
let caught = 0;
for i in 0..1000 { try { throw i; } catch (e) { if e == i { caught += 1; } } }
print(caught);
//= 1000
//--- in a closure
let seen = [];
let f = |x| { try { throw x; } catch (e) { seen.push(e * 2); } };
f.call(4);
f.call(5);
print(seen);
//= [8, 10]
//--- a fault that isn't thrown is caught as an object map
let a = [1];
try { a[5] } catch (e) {
    print(type_of(e));
    print(e.error);
    print(e.message);
    print(`${e.line}:${e.position}`);
}
//= map
//= ErrorArrayBounds
//= Index out of bounds: 5 (length 1)
//= 2:9
//--- the place of a fault in a function
fn half(x) { x / 0 }
try { half(1); } catch (e) { print(`${e.error} ${e.line}:${e.position}`); }
//= ErrorArithmetic 1:16
//--- a fault that is caught and thrown on is the object map
try {
    try { no_such(1); } catch (e) { throw e; }
} catch (e) {
    print(e.message);
}
//= Function not found: no_such (i64)
//--- the last statement of a block
let x = { try { 1 } catch { 2 } };
print(x == ());
let f = |n| { try { if n > 1 { throw "large"; } print("small"); } catch (e) { print(e); } };
f.call(1);
f.call(2);
//= true
//= small
//= large
