//--- is_empty and clear
let s = "abc";
print(s.is_empty());
s.clear();
print(s.is_empty());
print("[" + s + "]");
//= false
//= true
//= []
//--- letters
let s = "aBc";
print(s.to_upper());
print(s.to_lower());
print(s);
//= ABC
//= abc
//= aBc
//--- letters in place
let s = "aBc";
s.make_upper();
print(s);
s.make_lower();
print(s);
//= ABC
//= abc
//--- trim in place
let s = "  a b ";
s.trim();
print("[" + s + "]");
//= [a b]
//--- contains, starts_with, ends_with
let s = "hello";
print([s.contains("ell"), s.contains('z'), s.contains("")]);
print([s.starts_with("he"), s.starts_with("lo"), s.ends_with("lo")]);
//= [true, false, true]
//= [true, false, true]
//--- index_of
let s = "naïve text";
print(s.index_of("text"));
print(s.index_of('e'));
print(s.index_of("zzz"));
//= 6
//= 4
//= -1
//--- sub_string
let s = "hello, world";
print(s.sub_string(7));
print(s.sub_string(0, 5));
print(s.sub_string(-5, 3));
print(s.sub_string(7, 100));
//= world
//= hello
//= wor
//= world
//--- crop in place
let s = "hello, world";
s.crop(7);
print(s);
s.crop(1, 3);
print(s);
//= world
//= orl
//--- truncate in place
let s = "hello";
s.truncate(2);
print(s);
s.truncate(10);
print(s);
//= he
//= he
//--- pad in place
let s = "ab";
s.pad(5, '.');
print(s);
s.pad(3, '!');
print(s);
//= ab...
//= ab...
//--- replace in place
let s = "one two one";
s.replace("one", "three");
print(s);
//= three two three
//--- remove all of a kind
let s = "banana";
s.remove("an");
print(s);
let t = "banana";
t.remove('a');
print(t);
//= ba
//= bnn
//--- split
print("a,b,,c".split(","));
print("a b  c".split(' '));
print("one  two three".split());
//= ["a", "b", "", "c"]
//= ["a", "b", "", "c"]
//= ["one", "two", "three"]
//--- characters
let out = [];
for c in "héy".chars() { out.push(c); }
print(out);
//= ['h', 'é', 'y']
//--- get and set
let s = "cat";
print(s.get(0));
print(s.get(-1));
print(s.get(9) == ());
s.set(0, 'b');
s.set(-1, 'd');
print(s);
//= c
//= t
//= true
//= bad
//--- append
let s = "a";
s.append("b");
s.append('c');
s.append(4);
print(s);
//= abc4
//--- pop
let s = "abc";
print(s.pop());
print(s);
//= c
//= ab
//--- called as functions
let s = "abc";
print(len(s));
print(to_upper(s));
truncate(s, 1);
print(s);
//= 3
//= ABC
//= a
//--- set out of bounds changes nothing
let s = "cat";
s.set(7, 'x');
print(s);
//= cat
//--- characters of one byte and of several
let s = "abc";
s += "é";
print("" + s[0] + s[3] + s[-1] + s.len + s.bytes);
s.pop();
print("" + s[2] + s.len + s[-3]);
s.append('€');
s.pad(6, 'x');
print(s + s[3] + s[5] + " " + s.sub_string(2, 3) + " " + s.sub_string(-3));
s.set(3, 'd');
print(s + s.len + s[4]);
s[0] = 'ß';
print(s + s[1] + s.index_of("x") + s.index_of("d") + s.get(-6));
s.crop(1, 3);
print(s);
s.truncate(2);
print(s + s.get(1) + s.len);
//= aéé45
//= c3a
//= abc€xx€x c€x €xx
//= abcdxx6x
//= ßbcdxxb43ß
//= bcd
//= bcc2
//--- an index behind the characters of several bytes
"éé"[2]
//! Index out of bounds: 2 (length 2)
//--- parts by ranges
let s = "hello, world";
print(s.sub_string(1..3));
print(s.sub_string(1..=3));
print(s.sub_string(-5..4));
print("[" + s.sub_string(40..50) + s.sub_string(3..1) + "]");
s.crop(7..=100);
print(s);
s.crop(1..3);
print(s);
let n = "naïve";
print(n.sub_string(2..=3));
//= el
//= ell
//= hell
//= []
//= world
//= or
//= ïv
//--- characters of a part
let s = "hello";
print(s.chars(1, 3));
print(s.chars(1..3));
print(s.chars(1..=3));
print(s.chars(3));
print(s.chars(-2, 1));
print(s.chars(9, 2));
print(s.to_chars());
//= ['e', 'l', 'l']
//= ['e', 'l']
//= ['e', 'l', 'l']
//= ['l', 'o']
//= ['l']
//= []
//= ['h', 'e', 'l', 'l', 'o']
//--- index_of from a start
let s = "hello, world";
print([s.index_of('l', 4), s.index_of("o", 5), s.index_of("o", 4), s.index_of('h', 1)]);
print([s.index_of("l", -2), s.index_of('o', -100), s.index_of("d", 100), "".index_of("", 0)]);
let n = "naïve text";
print([n.index_of('e', 5), n.index_of("ve", 3)]);
//= [10, 8, 4, -1]
//= [10, 4, -1, -1]
//= [7, 3]
//--- replace characters
let s = "hello";
s.replace('l', 'L');
print(s);
s.replace('L', "<>");
print(s);
s.replace("<>", '_');
print(s);
//= heLLo
//= he<><>o
//= he__o
//--- pad with a text, as a whole
let s = "ab";
s.pad(6, "xyz");
print(s);
s.pad(3, "!");
print(s);
s.pad(10, "");
print(s);
s.pad(-1, "x");
print(s);
//= abxyzxyz
//= abxyzxyz
//= abxyzxyz
//= abxyzxyz
//--- pad has a limit
let s = "ab";
s.pad(1000000000000, "xy");
//! Size of data too large
//--- split at an index
print("hello".split(2));
print("hello".split(-1));
print("hello".split(0));
print("hello".split(9));
print("hello".split(-9));
//= ["he", "llo"]
//= ["hell", "o"]
//= ["", "hello"]
//= ["hello", ""]
//= ["", "hello"]
//--- split into a number of parts
let s = "a,b,c,d";
print(s.split(",", 2));
print(s.split(',', 9));
print(s.split(",", 0));
print(s.split_rev(","));
print(s.split_rev(','));
print(s.split_rev(",", 2));
print(s.split_rev(',', 0));
//= ["a", "b,c,d"]
//= ["a", "b", "c", "d"]
//= ["a,b,c,d"]
//= ["d", "c", "b", "a"]
//= ["d", "c", "b", "a"]
//= ["d", "a,b,c"]
//= ["a,b,c,d"]
//--- the empty separator is found at both ends
print("ab".split(""));
print("ab".split_rev(""));
print("".split(""));
//= ["", "a", "b", ""]
//= ["", "b", "a", ""]
//= ["", ""]
//--- the lesser and the greater of two
print([min("b", "a"), max("b", "a"), min("abc", "abd")]);
print([min('b', 'a'), max('b', 'a')]);
//= ["a", "b", "abc"]
//= ['a', 'b']
//--- texts without others
print("hello" - "l");
print("hello" - 'l');
print("hello" - "");
print("hello" - "xyz");
let s = "banana";
s -= "an";
print(s);
s -= 'a';
print(s);
//= heo
//= heo
//= hello
//= hello
//= ba
//= b
//--- a text without an integer
"a1" - 1
//! Function not found
//--- pad and split take no truth values
"a".split(true)
//! Function not found
//--- an op-assignment to a character
let s = "abc";
s[1] += "x";
//! Data type incorrect: expecting a character
//--- pop several characters
let s = "héllo";
print([s.pop(2), s]);
print([s.pop(0), s.pop(-1), s]);
print([s.pop(9), s]);
print([s.pop(1), "".pop(9223372036854775807)]);
//= ["lo", "hél"]
//= ["", "", "hél"]
//= ["hél", ""]
//= ["", ""]
//--- letters that change their number, and the last sigma
print(["Straße".to_upper(), "ΟΔΟΣ".to_lower()]);
let s = "ß";
s.make_upper();
print(s);
//= ["STRASSE", "οδος"]
//= SS
//--- append bytes
let s = "a";
s.append("bé".to_blob());
s.append(blob());
print(s);
//= abé
