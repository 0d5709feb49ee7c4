//--- keys and values
let m = #{ b: 2, a: 1 };
print(m.keys());
print(m.values());
//= ["a", "b"]
//= [1, 2]
//--- len, is_empty and clear
let m = #{ a: 1, b: 2 };
print(m.len());
print(m.is_empty());
m.clear();
print(m);
//= 2
//= false
//= #{}
//--- contains
let m = #{ a: () };
print(m.contains("a"));
print(m.contains("b"));
//= true
//= false
//--- get and set
let m = #{ a: 1 };
print(m.get("a"));
print(m.get("b") == ());
m.set("b", 2);
print(m);
//= 1
//= true
//= #{"a": 1, "b": 2}
//--- remove
let m = #{ a: 1, b: 2 };
print(m.remove("a"));
print(m.remove("z") == ());
print(m);
//= 1
//= true
//= #{"b": 2}
//--- mixin
let m = #{ a: 1, b: 2 };
m.mixin(#{ b: 3, c: 4 });
print(m);
//= #{"a": 1, "b": 3, "c": 4}
//--- called as functions
let m = #{ a: 1 };
print(keys(m));
print(len(m));
//= ["a"]
//= 1
//--- fill_with
let m = #{ a: 1 };
m.fill_with(#{ a: 10, b: 20, c: () });
print(m);
//= #{"a": 1, "b": 20, "c": ()}
//--- as JSON
print(#{ a: 1, b: "x", "c d": [1, 2], e: #{ f: () }, g: false }.to_json());
print(#{}.to_json());
fn foo() { 1 }
print(#{ f: Fn("foo"), t: "\x01\t" }.to_json());
//= {"a":1,"b":"x","c d":[1,2],"e":{"f":null},"g":false}
//= {}
//= {"f":"foo","t":"\u0001\t"}
//--- out of JSON
let m = parse_json(`{"a": 1, "b": [true, null, "x\n\u00e9"], "c": {"d": -5}, "a": 2}`);
print(m);
print(m.b[0]);
print(m.c.d);
print(parse_json(m.to_json()) == m);
print(parse_json("[1, 2]"));
//= #{"a": 2, "b": [true, (), "x\né"], "c": #{"d": -5}}
//= true
//= -5
//= true
//= [1, 2]
//--- no JSON
parse_json("{a: 1}")
//! Data type incorrect: expecting JSON
//--- JSON has floating point numbers too
print(parse_json("[1.5]"));
//= [1.5]
//--- JSON that is caught
let s = "";
try { parse_json("[1"); } catch (e) { s = e.message; }
print(s.contains("JSON"));
//= true
//--- JSON has a limit on nesting
let s = "";
for _ in 0..80 { s += "["; }
for _ in 0..80 { s += "]"; }
parse_json(s)
//! Size of data too large
