//--- made
print([blob().len(), blob(3).len(), blob(-1).len(), type_of(blob())]);
print(blob());
print(blob(2, 255));
print(blob(2, 258));
//= [0, 3, 0, "blob"]
//= []
//= [ffff]
//= [0202]

//--- printed in groups of 8 bytes
print(blob(10, 0x42));
print([blob(1, 7)]);
//= [4242424242424242 4242]
//= [[07]]

//--- items
let b = blob(3, 7);
b[1] = 255;
b[-1] = 257;
b[0] += 1;
print([b[0], b[1], b[2], b[-2], b.get(1), b.get(5)]);
//= [8, 255, 1, 255, 255, 0]

//--- an index past the end
let b = blob(3);
b[3]
//! Index out of bounds: 3 (length 3)

//--- an assignment past the end
let b = blob(3);
b[3] = 1;
//! Index out of bounds: 3 (length 3)

//--- a byte is an integer
let b = blob(3);
b[0] = "x";
//! Data type incorrect

//--- ends
let b = blob();
b.push(1);
b.push(513);
b.insert(0, 9);
print([b.pop(), b.shift(), b.len(), b.pop(), b.pop(), b.is_empty()]);
//= [1, 9, 1, 1, 0, true]

//--- removed and set
let b = "abc".to_blob();
print([b.remove(1), b.remove(7)]);
b.set(0, 122);
b.set(9, 1);
print(b.as_string());
//= [98, 0]
//= zc

//--- appended, truncated, reversed
let b = "abcdef".to_blob();
b.append("gh".to_blob());
b.truncate(7);
b.chop(5);
b.reverse();
print(b.as_string());
b.clear();
print(b.len);
//= gfedc
//= 0

//--- parts
let b = "abcdef".to_blob();
print([b.extract(2).as_string(), b.extract(1, 2).as_string(), b.extract(1..=3).as_string()]);
print(b.to_array());
//= ["cdef", "bc", "bcd"]
//= [97, 98, 99, 100, 101, 102]

//--- searched
let b = "abc".to_blob();
print([b.contains(98), b.contains(354), b.contains(1), 99 in b]);
//= [true, true, false, true]

//--- copies are values
let a = blob(2);
let b = a;
b[0] = 1;
print([a == b, a == blob(2), a, b]);
//= [false, true, [0000], [0100]]

//--- iterated
let sum = 0;
for x in blob(4, 200) { sum += x; }
print(sum);
//= 800

//--- too large
blob(1000000000000)
//! Size of data too large

//--- appended bytes, strings and characters
let b = blob();
b.append(1);
b.append(257);
b.append("hé");
b.append('€');
b.append(blob(2, 255));
b.append("");
print(b);
//= [010168c3a9e282ac ffff]

//--- a truth value is no byte
let b = blob();
b.append(true);
//! Function not found

//--- padded
let b = blob(2, 7);
b.pad(4, 300);
print(b);
b.pad(3, 1);
b.pad(-1, 1);
print(b);
//= [07072c2c]
//= [07072c2c]

//--- pad has a limit
let b = blob(1);
b.pad(1000000000000, 1);
//! Size of data too large

//--- spliced
let b = "abcdef".to_blob();
b.splice(1..3, "XYZ".to_blob());
print(b.as_string());
b.splice(0, 1, blob());
print(b.as_string());
b.splice(-2, 9, "!".to_blob());
print(b.as_string());
b.splice(1..=2, "-".to_blob());
print(b.as_string());
b.splice(9, 1, "?".to_blob());
print(b.as_string());
//= aXYZdef
//= XYZdef
//= XYZd!
//= X-d!
//= X-d!?

//--- spliced into nothing
let b = blob();
b.splice(0, 0, blob(2, 1));
print(b);
//= [0101]

//--- split
let b = "abcdef".to_blob();
let c = b.split(4);
print([b.as_string(), c.as_string()]);
let c = b.split(-1);
print([b.as_string(), c.as_string()]);
let c = b.split(9);
print([b.as_string(), c.as_string()]);
let c = b.split(-9);
print([b.as_string(), c.as_string()]);
//= ["abcd", "ef"]
//= ["abc", "d"]
//= ["abc", ""]
//= ["", "abc"]

//--- drained
let b = "abcdef".to_blob();
let c = b.drain(1..3);
print([b.as_string(), c.as_string()]);
let c = b.drain(-1, 5);
print([b.as_string(), c.as_string()]);
let c = b.drain(7, 2);
print([b.as_string(), c.as_string()]);
let c = b.drain(0..=0);
print([b.as_string(), c.as_string()]);
//= ["adef", "bc"]
//= ["ade", "f"]
//= ["ade", ""]
//= ["de", "a"]

//--- retained
let b = "abcdef".to_blob();
let c = b.retain(1..=9);
print([b.as_string(), c.as_string()]);
let c = b.retain(1..3);
print([b.as_string(), c.as_string()]);
let c = b.retain(-1, 1);
print([b.as_string(), c.as_string()]);
let c = b.retain(0, 0);
print([b.as_string(), c.as_string()]);
//= ["bcdef", "a"]
//= ["cd", "bef"]
//= ["d", "c"]
//= ["", "d"]

//--- integers out of bytes
let b = blob();
for x in 1..=5 { b.push(x); }
print([b.parse_le_int(1..3).to_hex(), b.parse_be_int(1..3).to_hex()]);
print([b.parse_le_int(0, 1), b.parse_le_int(-1, 9), b.parse_le_int(0..=1)]);
print([b.parse_le_int(5, 2), b.parse_be_int(0, 0), b.parse_be_int(0, -1), blob().parse_le_int(0, 8)]);
print([blob(9, 255).parse_le_int(0, 9), blob(9, 255).parse_be_int(0..9)]);
//= ["302", "203000000000000"]
//= [1, 5, 513]
//= [0, 0, 0, 0]
//= [-1, -1]

//--- integers into bytes
let b = blob(8);
b.write_le(1..3, 0x12345678);
print(b);
b.write_be(0, 8, 0x99);
print(b);
b.write_be(0..2, -2);
print(b);
b.write_le(-2, 9, 0x0102);
print(b);
b.write_le(8, 1, 7);
b.write_le(0, 0, 7);
b.write_be(0, -1, 7);
print(b);
b.write_le(0..8, -123456789);
print([b.parse_le_int(0..8), b.parse_be_int(0..8) == -123456789]);
b.write_be(0..=7, -123456789);
print(b.parse_be_int(0, 8));
//= [0078560000000000]
//= [0000000000000099]
//= [ffff000000000099]
//= [ffff000000000201]
//= [ffff000000000201]
//= [-123456789, false]
//= -123456789

//--- a long part gets 8 bytes
let b = blob(10, 170);
b.write_le(0..10, 1);
print(b);
b.write_be(1, 9, 2);
print(b);
//= [0100000000000000 aaaa]
//= [0100000000000000 02aa]

//--- floats out of bytes and into them
let b = blob(8);
b.write_be(0..8, 1.5);
print(b);
print([b.parse_be_float(0, 8), b.parse_be_float(0..2), b.parse_le_float(0..8) == 1.5]);
b.write_le(0, 8, -0.25);
print(b);
print([b.parse_le_float(0..=7), b.parse_le_float(3, 0), blob(8, 255).parse_le_float(0..8).is_nan()]);
b.write_le(0..8, 0.0 / 0.0);
print(b.parse_le_float(0, 8).is_nan());
//= [3ff8000000000000]
//= [1.5, 1.5, false]
//= [000000000000d0bf]
//= [-0.25, 0.0, true]
//= true

//--- texts into bytes
let b = blob(8, 46);
b.write_utf8(1..4, "hello");
print(b.as_string());
b.write_ascii(4, 3, "aéb€cd");
print(b.as_string());
b.write_utf8(-1, 5, "xyz");
b.write_utf8(9, 2, "q");
b.write_utf8(0, -1, "q");
b.write_ascii(0..8, "é");
b.write_ascii(0..8, "");
print(b.as_string());
b.write_utf8(0..=1, "é");
print(b.as_string());
//= .hel....
//= .helabc.
//= .helabcx
//= éelabcx

//--- half a character
let b = blob(2, 46);
b.write_utf8(0, 1, "é");
print(b);
//= [c32e]

//--- numbers are no texts
let b = blob(4);
b.write_utf8(0..4, 1);
//! Function not found

//--- texts are no numbers
let b = blob(4);
b.write_le(0..4, "x");
//! Function not found

//--- the largest counts
let b = blob(3, 1);
print([b.extract(0, 9223372036854775807).len, b.extract(-9223372036854775807, 2).len]);
let c = b.drain(1, 9223372036854775807);
print([b, c]);
print(b.parse_le_int(-9223372036854775807, 9223372036854775807));
b.write_le(-9223372036854775807, 9223372036854775807, 9);
b.write_le(9223372036854775807, 9223372036854775807, 8);
b.splice(9223372036854775807, 1, blob(1, 7));
print(b);
//= [3, 2]
//= [[01], [0101]]
//= 1
//= [0907]

//--- a write changes no copy
let a = blob(2, 1);
let b = a;
b.write_le(0..2, 0);
b.pad(3, 2);
print([a, b]);
//= [[0101], [000002]]

//--- sums of blobs
let b = blob();
b += 1;
b += "a";
b += 'b';
b += blob(1, 255);
print(b + blob(1));
print("x" + blob(2, 65));
//= [016162ff00]
//= xAA

//--- a blob and a byte have no sum
blob() + 1
//! Function not found: + (blob, i64)
