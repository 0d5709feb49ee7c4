//--- comments nest, and raw strings have no escapes
/* .. /* .. */ .. */
print(#"C:\new"#);
print(##".."##);
//= C:\new
//= ..

//--- the right operand where the left one is unit
let a = ();
let b = 2;
print(a ?? b);
//= 2

//--- chains are read and assigned
let a = [#{ list: [] }, #{ b: [0, 0, 0] }];
let m = #{ x: 5 };
let i = 0;
print(a[i].list.len());
print(m.x);
a[0].list.push(1);
a[1].b[2] = 3;
print(a[0].list[0] + a[1].b[2]);
//= 0
//= 5
//= 4

//--- a function with a receiver and one without are the same
fn f(x, y) { x - y }
let x = 5;
let a = [];
print(x.f(1));
print(f(x, 1));
push(a, 1);
a.push(1);
print(a.len());
//= 4
//= 4
//= 2

//--- each op-assignment
let x = 7;
x += 3;
x -= 1;
x *= 4;
x /= 2;
x %= 10;
x **= 2;
x <<= 1;
x >>= 2;
x &= 31;
x |= 1;
x ^= 2;
print(x);
//= 3

//--- statements
let c = false;
let d = true;
let items = [1, 2];
if c { } else if d { } else { }
while c { }
if c {
    loop { }
    do { } until c;
}
do { } while c;
for x in items { }
for (x, i) in items { }
let value = 3;
print(loop { break value; });
fn three() { let value = 3; return value; }
print(three());
try { } catch (e) { }
try { throw value; } catch (e) { print(e); }
//= 3
//= 3
//= 3

//--- an arm has cases, ranges and conditions
fn pick(x, y) {
    let a = "a";
    let b = "b";
    let c = "c";
    let d = "d";
    switch x { 1 => a, 2 | 3 => b, 4..9 if y => c, _ => d }
}
print(pick(1, false) + pick(3, false) + pick(5, true) + pick(5, false) + pick(9, true));
//= abcdd

//--- functions of the page
private fn add(a, b) { a + b }
fn bump() { this.count += 1; }
fn int.twice() { this * 2 }
fn "my type".f() { 1 }
const NAME = 30;
fn named() { global::NAME }
let x = #{ count: 0 };
x.bump();
print(x.count);
print(3.twice());
print(add(named(), 1));
//= 1
//= 6
//= 31

//--- pointers and closures of the page
fn name(x) { x + 1 }
let f = Fn("name");
print(f.call(1));
print(call(f, 1));
let g = |x, y| x + y;
print(curry(g, 1).call(2));
print(g.curry(1).call(2));
let one = || 1;
print(one.call());
let x = 1;
let h = || x + 1;
print(is_shared(x));
//= 2
//= 2
//= 3
//= 3
//= 1
//= true

//--- functions of object maps and of values
let m = #{ f: |x| x + this.k, k: 1 };
print(m.f(1));
print(true.to_string());
let x = "abc";
print(x.len);
print(`x is ${x.len + 1}`);
//= 2
//= true
//= 3
//= x is 4

//--- for_each has the item as this, and integers have bits
[1, 2].for_each(|| print(this));
let x = 5;
let i = 1;
print(x[i]);
//= 1
//= 2
//= false
