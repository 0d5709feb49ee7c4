//--- shown in the order of names
print(#{ b: 2, a: 1, "c d": [3] });
//= #{"a": 1, "b": 2, "c d": [3]}
//--- empty
print(#{});
print(#{}.len());
//= #{}
//= 0
//--- a comma at the end
print(#{ a: 1, });
//= #{"a": 1}
//--- properties
let m = #{ a: 1, "b c": 2 };
print(m.a);
print(m["a"]);
print(m["b c"]);
//= 1
//= 1
//= 2
//--- a missing name is unit
let m = #{ a: 1 };
print(m.b == ());
print(type_of(m["b"]));
//= true
//= ()
//--- assigned
let m = #{};
m.a = 1;
m["b"] = 2;
m.a += 10;
print(m);
//= #{"a": 11, "b": 2}
//--- nested
let m = #{ inner: #{ list: [1, 2] } };
m.inner.list[0] = 9;
m.inner.name = "x";
print(m);
//= #{"inner": #{"list": [9, 2], "name": "x"}}
//--- a copy is independent
let m = #{ a: 1 };
let n = m;
n.a = 2;
print(m.a);
print(n.a);
//= 1
//= 2
//--- names in it
let m = #{ a: 1 };
print("a" in m);
print("b" in m);
print("b" !in m);
//= true
//= false
//= true
//--- merged
print(#{ a: 1, b: 2 } + #{ b: 3, c: 4 });
let m = #{ a: 1 };
m += #{ a: 2, z: 0 };
print(m);
//= #{"a": 1, "b": 3, "c": 4}
//= #{"a": 2, "z": 0}
//--- compared
print(#{ a: 1, b: 2 } == #{ b: 2, a: 1 });
print(#{ a: 1 } == #{ a: 2 });
//= true
//= false
//--- a name by expression
let m = #{ key1: "one" };
let n = 1;
print(m["key" + n]);
//= one
//--- counted letters
let count = #{};
for c in "mississippi" {
    let name = c.to_string();
    if name in count { count[name] += 1; } else { count[name] = 1; }
}
print(count);
//= #{"i": 4, "m": 1, "p": 2, "s": 4}
//--- the value of the script
#{ x: [1, ()] }
//= #{"x": [1, ()]}
//--- object maps with other names differ
print(#{a: 1} == #{b: 1});
print(#{a: 1} == #{a: 1});
//= false
//= true
//--- a map that holds a copy of itself grows until it is too large
let m = #{};
loop { m.a = m; }
//! Size of data too large
//@ 2
//--- the same name in two maps
let m = #{ a: 1, b: #{ a: 2, b: 3 } };
print(m.a + m.b.a);
//= 3
