//--- this is read
fn twice() { this * 2 }
let x = 21;
print(x.twice());
//= 42
//--- this is changed
fn inc() { this += 1; }
let x = 1;
x.inc();
x.inc();
print(x);
//= 3
//--- with parameters
fn add(a, b) { this += a * b; this }
let x = 1;
print(x.add(2, 3));
print(x);
//= 7
//= 7
//--- a property of this
fn bump() { this.count += 1; }
let m = #{ count: 0 };
m.bump();
m.bump();
print(m.count);
//= 2
//--- on a property
fn inc() { this += 1; }
let m = #{ a: #{ b: 5 } };
m.a.b.inc();
print(m);
//= #{"a": #{"b": 6}}
//--- on an item
fn inc() { this += 1; }
let a = [1, 2, 3];
a[1].inc();
a[-1].inc();
print(a);
//= [1, 3, 4]
//--- this is assigned
fn reset() { this = 0; }
let x = 5;
x.reset();
print(x);
//= 0
//--- a method calls another
fn inc() { this += 1; }
fn inc_twice() { this.inc(); this.inc(); }
let x = 0;
x.inc_twice();
print(x);
//= 2
//--- a method of the library on this
fn add_all(items) { for x in items { this.push(x); } }
let a = [1];
a.add_all([2, 3]);
print(a);
//= [1, 2, 3]
//--- on a result
fn twice() { this * 2 }
fn seven() { 7 }
print(seven().twice());
//= 14
//--- a point
fn moved(dx, dy) { this.x += dx; this.y += dy; this }
let p = #{ x: 1, y: 2 };
p.moved(10, 20);
print(p);
//= #{"x": 11, "y": 22}
//--- this in a loop
fn sum_up(n) { for i in 1..=n { this += i; } }
let x = 0;
x.sum_up(4);
print(x);
//= 10
//--- on a character of a text
fn shown() { `<${this}>` }
let text = "abc";
print(text[1].shown());
print(text);
//= <b>
//= abc
//--- a chain ends before a method of the script
fn f() { "called on " + type_of(this) }
let x = ();
print(x?.f() == ());
let m = #{ a: () };
print(m.a?.f() == ());
print(m?.a.f());
print(x?.a.f() == ());
print(x?.a?.f() == ());
print(m?.f());
//= true
//= true
//= called on ()
//= true
//= true
//= called on map
//--- a method for another type, behind one that changes
fn int.len() { 0 }
let x = #{ a: ["abc", "de"] };
print(x.a.pop().len());
print(x.a);
//= 2
//= ["abc"]
//--- a local variable on which a function is called may be its first argument
fn f(x, y) { x - y }
let x = 5;
print(x.f(2));
//= 3
//--- a function that an object map holds
let m = #{ count: 40, more: |x| this.count + x, bump: || this.count += 1 };
print(m.more(2));
m.bump();
print(m.count);
//= 42
//= 41
//--- of a part of another value
let m = #{ v: 3, times: |x| this.v * x, set: |x| this.v = x };
let all = #{ list: [m], one: m };
print(all.one.times(2));
print(all.list[0].times(3));
all.list[0].set(9);
all.one.set(8);
print([all.list[0].v, all.one.v]);
//= 6
//= 9
//= [9, 8]
//--- of a value that lies in no variable, of a constant and of `this`
fn make() { #{ k: 5, twice: || this.k * 2 } }
print(make().twice());
const M = make();
print(M.twice());
fn both() { this.twice() + this.k }
let m = make();
print(m.both());
//= 10
//= 10
//= 15
//--- it comes before functions of the library
let m = #{ items: [1, 2], len: || this.items.len(), push: |x| this.items.push(x) };
m.push(7);
print(m.len());
print(m.items);
let outer = #{ m: m };
print(outer.m.len());
//= 3
//= [1, 2, 7]
//= 3
//--- it has what it captured, and a property that is no function is not called
let step = 10;
let m = #{ v: 1, add: |x| { step += x; this.v + step } };
print(m.add(1));
print(step);
print(m.call_it() ?? 0);
//= 12
//= 11
//! Function not found: call_it (map)
//--- with another number of arguments it isn't found
let m = #{ f: |x| x };
m.f();
//! Function not found: f (map)
//@ 2:3
//--- a function that throws leaves what it changed
let m = #{ v: 1, fail: || { this.v = 2; throw "no" } };
try { m.fail(); } catch (e) { print(e); }
print(m.v);
//= no
//= 2
