//--- plain
print("hello");
print("");
print("x");
//= hello
//=
//= x
//--- escapes
print("a\tb");
print("say \"hi\"");
print("back\\slash");
print("\x41\u0042\U00000043");
//= a	b
//= say "hi"
//= back\slash
//= ABC
//--- a line feed
print("one\ntwo");
//= one
//= two
//--- doubled quotes
print("say ""hi""");
//= say "hi"
//--- continued on the next line
let s = "hello \
         world";
print(s);
//= hello world
//--- in an array
print(["a", "say \"hi\"", "1\n2", ""]);
//= ["a", "say \"hi\"", "1\n2", ""]
//--- joined
print("a" + "b");
print("a" + 1);
print(1 + "a");
print("a" + true);
print("a" + [1, "b"]);
print("a" + ());
//= ab
//= a1
//= 1a
//= atrue
//= a[1, "b"]
//= a
//--- appended
let s = "a";
s += "b";
s += 'c';
s += 1;
print(s);
//= abc1
//--- compared
print("abc" == "abc");
print("abc" < "abd");
print("b" > "abc");
print("a" != "b");
//= true
//= true
//= true
//= true
//--- characters and bytes
let s = "naïve";
print(s.len());
print(s.len);
print(s.bytes());
//= 5
//= 5
//= 6
//--- a changed character
let s = "cat";
s[0] = 'b';
s[-1] = 'd';
print(s);
//= bad
//--- a copy is independent
let a = "one";
let b = a;
b += "!";
print(a);
print(b);
//= one
//= one!
//--- the value of the script
let s = "a\"b";
s + "c"
//= a"bc
//--- a string that is added to itself grows until it is too large
let s = "0123456789";
loop { s = s + s; }
//! Size of data too large
//@ 2
