//--- items of properties
let m = #{ a: [#{ b: [1, 2, 3] }] };
print(m.a[0].b[2]);
print(m["a"][0]["b"][-1]);
//= 3
//= 3
//--- assigned at the end
let a = [#{ b: [1, #{ c: 2 }] }];
a[0].b[1].c = 9;
a[0].b[0] += 10;
print(a);
//= [#{"b": [11, #{"c": 9}]}]
//--- a method changes a part
let m = #{ list: [1] };
m.list.push(2);
m["list"].push(3);
print(m);
//= #{"list": [1, 2, 3]}
//--- a method changes a deep part
let a = [[1], [2, [3]]];
a[1][1].push(4);
a[0].clear();
print(a);
//= [[], [2, [3, 4]]]
//--- methods one after the other
print("a,b,c".split(",").len());
print([3, 1, 2].len().to_string().len());
//= 3
//= 1
//--- of a call's result
fn made() { #{ list: [10, 20] } }
print(made().list[1]);
print(made().list.len());
//= 20
//= 2
//--- an index with calls
fn zero() { 0 }
let a = [[5, 6], [7, 8]];
print(a[zero()][zero() + 1]);
//= 6
//--- indices from left to right
fn noted(x) { print(x); x }
let a = [[1, 2], [3, 4]];
print(a[noted(1)][noted(0)]);
//= 1
//= 0
//= 3
//--- unit ends the chain
let m = #{ a: () };
print(m.a?.b == ());
print(m.a?.b.c.d == ());
print(m.missing?.x == ());
//= true
//= true
//= true
//--- not unit
let m = #{ a: #{ b: 5 } };
print(m?.a?.b);
print(m.a?.b);
//= 5
//= 5
//--- unit before an index
let x = ();
let a = [1, 2];
print(x?[0] == ());
print(a?[1]);
//= true
//= 2
//--- with a default
let m = #{ a: () };
print(m.a?.b ?? "none");
//= none
//--- a new entry deep inside
let m = #{ a: #{} };
m.a.b = #{};
m.a.b.c = 1;
print(m);
//= #{"a": #{"b": #{"c": 1}}}
//--- only one variable is changed
let a = [[1], [2]];
let b = a;
b[0].push(9);
b[1][0] = 8;
print(a);
print(b);
//= [[1], [2]]
//= [[1, 9], [8]]
//--- a character of an item
let a = ["one", "two"];
print(a[1][0]);
a[0][0] = 'O';
print(a);
//= t
//= ["One", "two"]
