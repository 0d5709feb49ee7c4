//--- an array
for x in ["a", 2, 'c'] { print(x); }
//= a
//= 2
//= c
//--- an empty array
for x in [] { print(x); }
print("after");
//= after
//--- a string
for c in "héy" { print(c); }
//= h
//= é
//= y
//--- with a counter
for (x, i) in ["a", "b"] { print(`${i}: ${x}`); }
//= 0: a
//= 1: b
//--- a counter of a range
for (x, i) in 5..8 { print(x * 10 + i); }
//= 50
//= 61
//= 72
//--- break
for x in 0..100 {
    if x == 2 { break; }
    print(x);
}
//= 0
//= 1
//--- the value of break
let found = for x in [3, 8, 12] { if x > 5 { break x; } };
print(found);
//= 8
//--- without break it is unit
let x = for i in 0..2 { };
print(x == ());
//= true
//--- continue
for x in 0..5 {
    if x % 2 == 1 { continue; }
    print(x);
}
//= 0
//= 2
//= 4
//--- nested
let out = "";
for a in 0..3 {
    for b in 0..3 {
        if b > a { break; }
        out += `${a}${b} `;
    }
}
out.trim();
print(out);
//= 00 10 11 20 21 22
//--- the array may change meanwhile
let a = [1, 2, 3];
for x in a { a.push(x * 10); }
print(a);
//= [1, 2, 3, 10, 20, 30]
//--- the variable hides an outer one
let x = "outer";
for x in 0..2 { print(x); }
print(x);
//= 0
//= 1
//= outer
//--- the variable may be assigned
for x in 0..3 { x *= 10; print(x); }
//= 0
//= 10
//= 20
//--- names of a map
let m = #{ b: 2, a: 1 };
for name in m.keys() { print(`${name}=${m[name]}`); }
//= a=1
//= b=2
//--- a range function
for i in range(2, 5) { print(i); }
//= 2
//= 3
//= 4
//--- return inside
fn first_even(list) {
    for x in list { if x % 2 == 0 { return x; } }
    -1
}
print(first_even([3, 4, 6]));
print(first_even([3]));
//= 4
//= -1
