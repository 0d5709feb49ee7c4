//--- map
print([1, 2, 3].map(|x| x * x));
//= [1, 4, 9]
//--- filter
let a = [1, 2, 3, 4];
print(a.filter(|x| x % 2 == 0));
print(a);
//= [2, 4]
//= [1, 2, 3, 4]
//--- reduce
print([1, 2, 3].reduce(|sum, x| sum + x, 10));
print(["a", "b"].reduce(|text, x| text + x, ""));
//= 16
//= ab
//--- some and all
let a = [1, 2, 3];
print([a.some(|x| x > 2), a.some(|x| x > 3)]);
print([a.all(|x| x > 0), a.all(|x| x > 1)]);
print([[].some(|x| true), [].all(|x| false)]);
//= [true, false]
//= [true, false]
//= [false, true]
//--- find
let a = [1, 5, 8];
print(a.find(|x| x > 3));
print(a.find(|x| x > 10) == ());
//= 5
//= true
//--- find_index
let a = [1, 5, 8];
print(a.find_index(|x| x > 3));
//= 1
//--- sort by a closure
let a = [3, 1, 2];
a.sort(|x, y| y - x);
print(a);
//= [3, 2, 1]
//--- sort of maps
let a = [#{ n: 2, s: "b" }, #{ n: 1, s: "a" }];
a.sort(|x, y| x.n - y.n);
print(a.map(|m| m.s));
//= ["a", "b"]
//--- retain
let a = [1, 2, 3, 4];
a.retain(|x| x > 2);
print(a);
//= [3, 4]
//--- one after the other
print([5, 2, 8, 1].filter(|x| x > 1).map(|x| x * 10).reduce(|s, x| s + x, 0));
//= 150
//--- a captured variable
let k = 3;
let seen = 0;
print([1, 2].map(|x| { seen += 1; x * k }));
print(seen);
//= [3, 6]
//= 2
//--- by the name of a function
fn twice(x) { x * 2 }
print([1, 2].map(Fn("twice")));
//= [2, 4]
//--- throw inside
try { [1, 2].map(|x| { if x == 2 { throw "two"; } x }); } catch (e) { print(e); }
//= two
//--- nested
print([[1, 2], [3]].map(|row| row.map(|x| x + 1)));
//= [[2, 3], [4]]
//--- a script's functions don't reach into these
fn min(a, b) { 0 }
fn len() { 0 }
fn push(x) { throw "mine" }
let x = [3, 1, 2];
x.sort(|a, b| a - b);
print(x);
print([1, 2].map(|v| v + 1));
print(x.filter(|v| v > 1));
print(x.retain(|v| v > 1));
print(x);
print(x.find_index(|v| v == 3));
//= [1, 2, 3]
//= [2, 3]
//= [2, 3]
//= [1]
//= [2, 3]
//= 1
//--- functions for a type don't either
fn array.push(x) { throw "mine" }
fn array.len() { 0 }
fn int.min(x) { 0 }
let x = [3, 1, 2];
x.sort(|a, b| a - b);
print(x);
print(x.map(|v| v + 1));
//= [1, 2, 3]
//= [2, 3, 4]
//--- a script's own map, filter and sort come first
fn map(f) { "map of " + this.len() }
fn filter(f) { "filter of " + this.len() }
fn sort(f) { "sort of " + this.len() }
let x = [3, 1, 2];
print(x.map(|v| v));
print(x.filter(|v| v));
print(x.sort(|a, b| a - b));
print(x);
//= map of 3
//= filter of 3
//= sort of 3
//= [3, 1, 2]
//--- sort without a closure, as a function and as a method
let a = [3, 1, 2];
a.sort(|x, y| y - x);
print(a);
sort(a);
print(a);
a.sort(|x, y| y - x);
a.sort();
print(a);
//= [3, 2, 1]
//= [1, 2, 3]
//= [1, 2, 3]
//--- items that are arrays
let a = [[2], [], [1, 1]];
print(a.map(|x| x));
print(a.filter(|x| x.len() > 0));
a.sort(|x, y| x.len() - y.len());
print(a);
//= [[2], [], [1, 1]]
//= [[2], [1, 1]]
//= [[], [2], [1, 1]]
//--- a function of arrays is a method
let x = [1, 2];
let f = |item| item + 1;
print(x.map(f));
//= [2, 3]
//--- an index after the item
print([10, 20].map(|x, i| x + i));
print([5, 6, 7].filter(|x, i| i != 1));
print([1, 2, 3].all(|x, i| x == i + 1));
print([1, 2, 3].find_index(|x, i| x + i == 5));
//= [10, 21]
//= [5, 7]
//= true
//= 2
//--- the item as this
print([1, 2].map(|| this * 3));
print([1, 2, 3].some(|| this == 2));
fn is_even_one() { this % 2 == 0 }
print([1, 2, 4].filter(Fn("is_even_one")));
//= [3, 6]
//= true
//= [2, 4]
//--- for_each has the item as this, and passes the index
let a = [1, 2, 3];
a.for_each(|| this *= 10);
print(a);
let sum = 0;
a.for_each(|i| sum += this * i);
print(sum);
//= [10, 20, 30]
//= 80
//--- reduce with an index, and with the item as this
print([1, 2, 3].reduce(|sum, x, i| if i == 0 { x } else { sum * 10 + x }));
print([1, 2, 3].reduce(|sum| sum + this, 0));
print([1, 2, 3].reduce_rev(|text, x| text + x, ""));
print(["a", "b"].reduce_rev(|text, x, i| `${text}${x}${i}`, ""));
//= 123
//= 6
//= 321
//= b1a0
//--- find_map
print([#{ a: 1 }, #{ b: 2 }, #{ c: 3 }].find_map(|m| m.b));
print([1, 2].find_map(|x| ()) == ());
//= 2
//= true
//--- drain
let a = [1, 2, 3, 4];
print(a.drain(|x| x % 2 == 0));
print(a);
//= [2, 4]
//= [1, 3]
//--- dedup by a function
let a = [1, 2, 12, 22, 3];
a.dedup(|x, y| x % 10 == y % 10);
print(a);
//= [1, 2, 3]
//--- index_of a function
print([4, 5, 6].index_of(|x| x > 4));
print([4, 5, 6].index_of(6));
print([4, 5, 6].index_of(|x| x > 9));
//= 1
//= 2
//= -1
//--- as a function of the array
let a = [3, 1, 2];
print(map(a, |x| x + 1));
print(filter([1, 2, 3], |x| x > 1));
retain(a, |x| x > 1);
print(a);
//= [4, 2, 3]
//= [2, 3]
//= [3, 2]
//--- functions of object maps
let m = #{ a: 1, b: 2, c: 3 };
print(m.filter(|name, x| x > 1 && name != "c"));
print(m.drain(|name, x| x == 1));
print(m);
print(m.retain(|name| this == 3));
print(m);
//= #{"b": 2}
//= #{"a": 1}
//= #{"b": 2, "c": 3}
//= #{"b": 2}
//= #{"c": 3}
//--- what is no function
[1].map(5)
//! Data type incorrect: expecting Fn
//--- drain and retain of a part
let a = [1, 2, 3, 4, 5];
print(a.drain(1..3));
print(a);
print(a.retain(0..=1));
print(a);
//= [2, 3]
//= [1, 4, 5]
//= [5]
//= [1, 4]
//--- drain of what is neither
let a = [1];
a.drain("x")
//! Data type incorrect: expecting Fn

//--- searches from an index on
let a = [5, 3, 8, 3, 1];
print([a.index_of(|x| x == 3, 2), a.index_of(3, 2), a.index_of(|x| x > 3, -1), a.index_of(|x| x == 1, -9), a.index_of(|x| x == 1, 9)]);
print([a.find(|x| x > 1, 3), a.find(|x| x == 1, 1)]);
print(a.find(|x| x > 1, -1) == ());
print([a.find_map(|x| if x > 1 { x * 2 }, 3), a.find_map(|x, i| if x == 1 { i }, 1)]);
//= [3, 3, -1, 4, -1]
//= [3, 1]
//= true
//= [6, 4]
