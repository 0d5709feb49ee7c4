//--- called
let f = |x| x + 1;
print(f.call(41));
//= 42
//--- without parameters
let f = || "nothing";
print(f.call());
//= nothing
//--- with a block
let f = |a, b| { let c = a * b; c + 1 };
print(f.call(2, 3));
//= 7
//--- a captured variable is read
let n = 10;
let f = |x| x + n;
print(f.call(5));
//= 15
//--- a captured variable is shared
let n = 1;
let f = |x| n += x;
f.call(2);
f.call(3);
print(n);
//= 6
//--- a later assignment is seen
let n = 1;
let f = || n * 10;
n = 5;
print(f.call());
//= 50
//--- two closures share
let n = 0;
let inc = || n += 1;
let get = || n;
inc.call();
inc.call();
print(get.call());
//= 2
//--- is_shared
let a = 1;
let b = 2;
let f = || a;
print(is_shared(a));
print(is_shared(b));
//= true
//= false
//--- it lives on after its function
fn counter() { let n = 0; || { n += 1; n } }
let one = counter();
let two = counter();
one.call();
one.call();
two.call();
print([one.call(), two.call()]);
//= [3, 2]
//--- passed to a function
fn apply(f, x) { f.call(x) }
let k = 3;
print(apply(|x| x * k, 14));
//= 42
//--- nested
let a = 1;
let f = |b| { let g = |c| a + b + c; g.call(3) };
print(f.call(2));
//= 6
//--- in an array
let list = [|x| x + 1, |x| x * 2];
let out = [];
for f in list { out.push(f.call(10)); }
print(out);
//= [11, 20]
//--- a captured array
let list = [];
let add = |x| list.push(x);
add.call(1);
add.call("b");
print(list);
//= [1, "b"]
//--- composed
fn compose(f, g) { |x| g.call(f.call(x)) }
let h = compose(|x| x + 1, |x| x * 10);
print(h.call(4));
//= 50
//--- a parameter hides a captured name
let x = 1;
let f = |x| x * 2;
print(f.call(21));
print(x);
//= 42
//= 1
//--- a method of a closure in brackets
print((|x| { x }).curry(1).call());
//= 1
//--- a method of a closure with a block
print(|x| { x }.curry(1).call());
let f = |x, y| { x * 10 + y }.curry(4);
print(f.call(2));
//= 1
//= 42
//--- a closure is called where it is written
print(|| { 7 }.call());
let x = 8;
let res = |y, z| { let w = 12; (|| x + y + z + w).call() }.curry(15).call(2);
print(res);
//= 7
//= 37
//--- a method of the value of a closure
let f = |x| x.len();
print(f.call("abc"));
//= 3
//--- closures that are kept see what they captured, however many were made since
let kept = [];
for i in 0..20000 {
    let n = i;
    let f = || n;
    if i % 1000 == 0 { kept.push(f); }
}
let sum = 0;
for f in kept { sum += f.call(); }
print(sum);
kept.clear();
let count = 0;
for i in 0..20000 {
    let n = i;
    let more = || n += 1;
    more.call();
    if n == i + 1 { count += 1; }
}
print(count);
//= 190000
//= 20000
