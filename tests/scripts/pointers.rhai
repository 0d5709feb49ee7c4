//--- by name
fn add(a, b) { a + b }
let f = Fn("add");
print(f.call(1, 2));
//= 3
//--- its name and type
fn add(a, b) { a + b }
let f = Fn("add");
print(f.name);
print(type_of(f));
print(f);
//= add
//= Fn
//= Fn(add)
//--- called as a function
fn add(a, b) { a + b }
print(call(Fn("add"), 20, 22));
//= 42
//--- curried
fn add(a, b) { a * 10 + b }
let f = Fn("add").curry(4);
print(f.call(2));
//= 42
//--- curried twice
fn three(a, b, c) { [a, b, c] }
let f = Fn("three").curry(1).curry(2);
print(f.call(3));
print(curry(Fn("three"), 7, 8).call(9));
//= [1, 2, 3]
//= [7, 8, 9]
//--- currying leaves the first one as it was
fn two(a, b) { [a, b] }
let f = Fn("two");
let g = f.curry(1);
print(f.call(8, 9));
print(g.call(2));
//= [8, 9]
//= [1, 2]
//--- chosen at run time
fn plus(a, b) { a + b }
fn minus(a, b) { a - b }
for name in ["plus", "minus"] { print(Fn(name).call(5, 3)); }
//= 8
//= 2
//--- in a map
fn twice(x) { x * 2 }
let table = #{ f: Fn("twice") };
let f = table.f;
print(f.call(4));
//= 8
//--- of the library
let f = Fn("len");
print(f.call([1, 2, 3]));
//= 3
//--- a closure is a pointer
let f = |x| x;
print(type_of(f));
//= Fn
//--- a curried closure
let f = |a, b| a - b;
print(f.curry(10).call(3));
//= 7
//--- `call` binds `this` to a variable
fn grow(by) { this += by; this }
let f = Fn("grow");
let x = 40;
print(x.call(f, 1));
print(x.call(f, 1));
print(x);
//= 41
//= 42
//= 42
//--- `call` binds `this` to an object map
let obj = #{ a: 40 };
print(obj.call(|x| this.a + x, 2));
obj.call(|x| this.a += x, 3);
print(obj.a);
//= 42
//= 43
//--- `call` of a pointer that the object map has
let obj = #{ a: 40, f: |x| this.a + x };
print(obj.call(obj.f, 2));
//= 42
//--- `call` without arguments but the pointer
fn push_one() { this.push(1); }
let list = [];
list.call(Fn("push_one"));
list.call(|| this.push(2));
print(list);
//= [1, 2]
//--- `call` on a value that lies in no variable
print((20 + 1).call(|| this * 2));
print("ab".call(|x| this + x, "c"));
print([1, 2].call(|| this.len()));
//= 42
//= abc
//= 2
//--- `call` on `this`
fn grow(by) { this += by; }
fn grow_twice(f) { this.call(f, 1); this.call(f, 1); }
let x = 40;
x.grow_twice(Fn("grow"));
print(x);
//= 42
//--- `call` on a constant leaves it as it is
const LIST = [1];
print(LIST.call(|x| { this.push(x); this.len() }, 2));
print(LIST);
//= 2
//= [1]
//--- `call` on a part binds a copy
let x = #{ a: 40 };
let f = || { this += 2; this };
print(x.a.call(f));
print(x.a);
//= 42
//= 40
//--- `call` on a result
fn number() { 40 }
print(number().call(|x| this + x, 2));
print([40, 1][0].call(|x| this + x, 2));
print("abc".len().call(|x| this + x, 39));
//= 42
//= 42
//= 42
//--- `call` with bound arguments binds `this` too
fn sum(a, b) { this + a * 10 + b }
let x = 100;
print(x.call(Fn("sum").curry(4), 2));
//= 142
//--- `call` of a closure that captures another variable
let n = 0;
let x = 40;
x.call(|by| { n += 1; this += by + n; }, 1);
print(x);
print(n);
//= 42
//= 1
//--- a pointer is called itself, with pointers as arguments
let twice = |x| x * 2;
let apply = |f, x| f.call(x);
print(apply.call(twice, 21));
const APPLY = apply;
print(APPLY.call(twice, 4));
//= 42
//= 8
//--- `call` in a function, on its parameter
fn grown(x, f) { x.call(f); x }
let x = 41;
print(grown(x, || this += 1));
print(x);
//= 42
//= 41
//--- `call` in a loop
let sum = 0;
for i in 1..=3 { sum.call(|x| this += x, i); }
print(sum);
//= 6
//--- `call` of a function of the library has no `this`
let x = 1;
print(x.call(Fn("len"), [1, 2, 3]));
//= 3
//--- `call` of a variable with no function pointer
let x = 1;
x.call(2);
//! Fn
//@ 2:3
//--- `call` of a value with no function pointer
print("before");
1.call(2, 3);
//= before
//! Fn
//@ 2:3
//--- `call` without a pointer
let x = 1;
x.call();
//! Fn
//@ 2:3
//--- `call` of a function with other parameters
fn two(a, b) { this }
let x = 1;
x.call(Fn("two"), 1);
//! two
//@ 3:3
//--- a fault in what is called leaves the variable
let x = [1];
try { x.call(|| { this.push(2); 1 / 0 }); } catch { }
print(x);
//= [1, 2]
//--- `this` is bound in no plain call
fn read() { this }
let x = 1;
print(x.call(Fn("read")));
call(Fn("read"));
//= 1
//! this
//@ 4:1
//--- names of the compiler's own
fn check(name) { try { Fn(name); print("a pointer"); } catch (e) { print(e.message); } }
let f = |x| x + 1;
check(f.name);
check("len$");
check("get$a");
check("no_such_function");
print(#{ "anon$1": 5 }["anon$1"] + "len$");
print(f.call(1));
//= Function not found: anon$1 ()
//= Function not found: len$ ()
//= Function not found: get$a ()
//= a pointer
//= 5len$
//= 2
//--- a text calls no function
call("len$", [1]);
//! Data type incorrect: expecting Fn
//--- a name that no function can have
fn check(name) { try { Fn(name); return "a pointer"; } catch (e) { return e.error; } }
print([check("a b"), check(""), check("1a"), check("_"), check("_a1"), check("+")]);
//= ["ErrorFunctionNotFound", "ErrorFunctionNotFound", "ErrorFunctionNotFound", "ErrorFunctionNotFound", "a pointer", "a pointer"]
//--- whether a function is defined
fn foo(a) { a }
fn int.bar() { this }
print([is_def_fn("foo", 1), is_def_fn("foo", 0), is_def_fn("none", 1), is_def_fn("foo", -1)]);
print([is_def_fn("int", "bar", 0), is_def_fn("bar", 0), is_def_fn("string", "bar", 0)]);
let k = 1;
let f = |x| x + k;
print([is_def_fn(f, 1), is_def_fn(f, 0), is_def_fn(f.curry(1), 0), is_def_fn(Fn("abs"), 1)]);
//= [true, false, false, false]
//= [true, false, false]
//= [true, false, true, false]
//--- a function by its name
fn dbl(x) { x * 2 }
let f = dbl;
print(f.call(4));
print([1, 2].map(dbl));
print(type_of(dbl));
print(dbl.name);
print(dbl.call(8));
//= 8
//= [2, 4]
//= Fn
//= dbl
//= 16
//--- a function by its name before it is declared
print([3, 4].map(half));
fn half(x) { x / 2 }
//= [1, 2]
//--- a variable hides a function of its name
fn size() { 1 }
let size = 5;
print(size);
print(size());
//= 5
//= 1
//--- behind the block of a variable that hides a function
fn size() { 1 }
{ let size = 5; print(size); }
print(size.call());
//= 5
//= 1
//--- a parameter hides a function of its name
fn one(x) { x }
fn two(one) { one + 1 }
print(two(3));
//= 4
//--- a function by its name in a function
fn inner(x) { x + 1 }
fn outer(list) { list.map(inner) }
print(outer([1, 2]));
//= [2, 3]
//--- a function by its name in a closure
fn inner(x) { x + 1 }
let f = |list| list.map(inner);
print(f.call([5]));
//= [6]
//--- arguments are bound to a function by its name
fn add(a, b) { a + b }
print(add.curry(1).call(2));
print(curry(add, 10).call(5));
print(call(add, 2, 3));
//= 3
//= 15
//= 5
//--- a function by its name as a property
fn add(a, b) { a + b }
let m = #{ f: add };
print(m.f.call(1, 2));
//= 3
//--- a function by its name isn't shared
fn f() { 1 }
print(is_shared(f));
//= false
//--- a method of a function by its name
fn greet() { `I am ${this.name}` }
let who = #{ name: "Ann" };
print(who.call(greet));
//= I am Ann
