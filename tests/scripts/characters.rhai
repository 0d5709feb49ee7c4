//--- plain
print('a');
print(type_of('a'));
//= a
//= char
//--- in an array
print(['a', ' ', 'é']);
//= ['a', ' ', 'é']
//--- escapes
print(['\n', '\t', '\'', '\\']);
//= ['\n', '\t', '\'', '\\']
//--- by number
print('\x41');
print('\u263a');
print('\U0001f600');
//= A
//= ☺
//= 😀
//--- compared
print('a' < 'b');
print('b' <= 'a');
print('a' == 'a');
print('a' != 'b');
//= true
//= false
//= true
//= true
//--- joined
let word = 'a' + 'b';
print(word);
print(type_of(word));
print("x" + 'y');
print('x' + "y");
//= ab
//= string
//= xy
//= xy
//--- of a string
let s = "héllo";
print(s[1]);
print(s[-1]);
print(s[0] == 'h');
//= é
//= o
//= true
//--- to integers and back
print('A'.to_int());
let n = 97;
print(n.to_char());
//= 65
//= a
//--- letters
print('a'.to_upper());
print('Z'.to_lower());
//= A
//= z
//--- the value of the script
"abc"[1]
//= b
//--- letters in place
let c = 'a';
c.make_upper();
print(c);
c.make_lower();
print(c);
let m = #{ c: 'é' };
m.c.make_upper();
print(m.c);
//= A
//= a
//= É
//--- a character whose capital letter is several
print(['ß'.to_upper(), 'é'.to_upper(), '1'.to_upper(), 'É'.to_lower()]);
let c = 'ß';
make_upper(c);
print(c);
//= ['ß', 'É', '1', 'é']
//= ß
