//--- push and pop
let a = [1];
a.push(2);
a.push([3]);
print(a.pop());
print(a);
print([].pop() == ());
//= [3]
//= [1, 2]
//= true
//--- called as functions
let a = [1];
push(a, 2);
print(len(a));
print(a);
//= 2
//= [1, 2]
//--- shift
let a = [1, 2, 3];
print(a.shift());
print(a);
//= 1
//= [2, 3]
//--- insert
let a = [1, 3];
a.insert(1, 2);
a.insert(-1, "x");
a.insert(100, "end");
print(a);
//= [1, 2, "x", 3, "end"]
//--- remove
let a = [1, 2, 3];
print(a.remove(1));
print(a.remove(-1));
print(a);
print(a.remove(9) == ());
//= 2
//= 3
//= [1]
//= true
//--- append
let a = [1];
a.append([2, 3]);
print(a);
//= [1, 2, 3]
//--- truncate and chop
let a = [1, 2, 3, 4, 5];
a.truncate(4);
print(a);
a.chop(2);
print(a);
//= [1, 2, 3, 4]
//= [3, 4]
//--- pad
let a = [1];
a.pad(3, "x");
print(a);
a.pad(2, "y");
print(a);
//= [1, "x", "x"]
//= [1, "x", "x"]
//--- extract
let a = [1, 2, 3, 4];
print(a.extract(1, 2));
print(a.extract(2));
print(a.extract(-2));
print(a);
//= [2, 3]
//= [3, 4]
//= [3, 4]
//= [1, 2, 3, 4]
//--- reverse
let a = [1, "b", 'c'];
a.reverse();
print(a);
//= ['c', "b", 1]
//--- sort
let a = [3, -1, 2];
a.sort();
print(a);
let b = ["pear", "apple", "fig"];
b.sort();
print(b);
//= [-1, 2, 3]
//= ["apple", "fig", "pear"]
//--- dedup
let a = [1, 1, 2, 2, 2, 1];
a.dedup();
print(a);
//= [1, 2, 1]
//--- contains and index_of
let a = [1, "b", [3]];
print([a.contains("b"), a.contains(9), a.contains([3])]);
print([a.index_of("b"), a.index_of(9)]);
//= [true, false, true]
//= [1, -1]
//--- get and set
let a = [1, 2, 3];
print(a.get(0));
print(a.get(-1));
print(a.get(7) == ());
a.set(1, "x");
print(a);
//= 1
//= 3
//= true
//= [1, "x", 3]
//--- clear and is_empty
let a = [1, 2];
print(a.is_empty());
a.clear();
print(a.is_empty());
print(a.len());
//= false
//= true
//= 0
//--- join
print([1, "b", 'c'].join(", "));
print([].join("-"));
//= 1, b, c
//=
//--- set out of bounds changes nothing
let a = [1];
a.set(5, 2);
print(a);
//= [1]
//--- join is as long as the host allows
let a = [];
a.pad(100000, 1);
let s = "";
s.pad(1000000, 'x');
a.join(s)
//! Size of data too large
//@ 5:3
//--- sorting by a function keeps the order of equal items
let a = [[1, 1], [0, 2], [1, 2], [0, 1]];
a.sort(|x, y| x[0] - y[0]);
print(a);
//= [[0, 2], [0, 1], [1, 1], [1, 2]]
//--- an array literal of 256 items
let a = [0, 1, 2, 3, 4, 5, 6, 7, 8, 9, 10, 11, 12, 13, 14, 15, 16, 17, 18, 19, 20, 21, 22, 23, 24, 25, 26, 27, 28, 29, 30, 31, 32, 33, 34, 35, 36, 37, 38, 39, 40, 41, 42, 43, 44, 45, 46, 47, 48, 49, 50, 51, 52, 53, 54, 55, 56, 57, 58, 59, 60, 61, 62, 63, 64, 65, 66, 67, 68, 69, 70, 71, 72, 73, 74, 75, 76, 77, 78, 79, 80, 81, 82, 83, 84, 85, 86, 87, 88, 89, 90, 91, 92, 93, 94, 95, 96, 97, 98, 99, 100, 101, 102, 103, 104, 105, 106, 107, 108, 109, 110, 111, 112, 113, 114, 115, 116, 117, 118, 119, 120, 121, 122, 123, 124, 125, 126, 127, 128, 129, 130, 131, 132, 133, 134, 135, 136, 137, 138, 139, 140, 141, 142, 143, 144, 145, 146, 147, 148, 149, 150, 151, 152, 153, 154, 155, 156, 157, 158, 159, 160, 161, 162, 163, 164, 165, 166, 167, 168, 169, 170, 171, 172, 173, 174, 175, 176, 177, 178, 179, 180, 181, 182, 183, 184, 185, 186, 187, 188, 189, 190, 191, 192, 193, 194, 195, 196, 197, 198, 199, 200, 201, 202, 203, 204, 205, 206, 207, 208, 209, 210, 211, 212, 213, 214, 215, 216, 217, 218, 219, 220, 221, 222, 223, 224, 225, 226, 227, 228, 229, 230, 231, 232, 233, 234, 235, 236, 237, 238, 239, 240, 241, 242, 243, 244, 245, 246, 247, 248, 249, 250, 251, 252, 253, 254, 255];
print(a.len());
print(a[255]);
//= 256
//= 255
//--- an array that holds copies of itself grows until it is too large
let a = [1];
loop { a.push(a); }
//! Size of data too large
//@ 2
//--- extract a range
let x = [1, 2, 3, 4, 5];
print([x.extract(1..3), x.extract(1..=3), x.extract(-3..2), x.extract(4..99), x.extract(9..12)]);
print(x);
//= [[2, 3], [2, 3, 4], [1, 2], [5], []]
//= [1, 2, 3, 4, 5]
//--- splice
let x = [1, 2, 3, 4];
x.splice(1, 2, [9, 9, 9]);
print(x);
x.splice(-1, 1, []);
print(x);
x.splice(1, 0, ["a"]);
print(x);
x.splice(99, 3, ["end"]);
print(x);
x.splice(0..=1, [0]);
print(x);
x.splice(1..4, ["b"]);
print(x);
//= [1, 9, 9, 9, 4]
//= [1, 9, 9, 9]
//= [1, "a", 9, 9, 9]
//= [1, "a", 9, 9, 9, "end"]
//= [0, 9, 9, 9, "end"]
//= [0, "b", "end"]
//--- splice into itself
let x = [1, 2];
x.splice(1, 0, x);
print(x);
//= [1, 1, 2, 2]
//--- splice wants an array
let x = [1, 2];
x.splice(1, 0, 7)
//! Function not found
//--- split
let x = [1, 2, 3, 4];
let y = x.split(1);
print([x, y]);
let z = y.split(-1);
print([y, z]);
print([y.split(9), y, y.split(0), y]);
//= [[1], [2, 3, 4]]
//= [[2, 3], [4]]
//= [[], [2, 3], [2, 3], []]
//--- drain a part
let x = [1, 2, 3, 4, 5];
let y = x.drain(1, 2);
print([x, y]);
print([x.drain(-1, 9), x]);
print([x.drain(0..1), x, x.drain(5..9), x, x.drain(0, -1), x]);
//= [[1, 4, 5], [2, 3]]
//= [[5], [1, 4]]
//= [[1], [4], [], [4], [], [4]]
//--- retain a part
let x = [1, 2, 3, 4, 5];
let y = x.retain(1, 3);
print([x, y]);
print([x.retain(-1, 1), x]);
print([x.retain(0, 0), x]);
//= [[2, 3, 4], [1, 5]]
//= [[2, 3], [4]]
//= [[4], []]
//--- index_of from a start
let x = [1, 2, 3, 2];
print([x.index_of(2), x.index_of(2, 2), x.index_of(1, 1), x.index_of(2, -1), x.index_of(2, 9)]);
//= [1, 3, -1, 3, -1]
//--- sorted copies, and descending
let x = [3, 1, 2];
print([x.order(), x.order_desc(), x]);
x.sort_desc();
print(x);
let t = ["b", "a"];
print([t.order(), order_desc(['a', 'c', 'b'])]);
//= [[1, 2, 3], [3, 2, 1], [3, 1, 2]]
//= [3, 2, 1]
//= [["a", "b"], ['c', 'b', 'a']]
//--- truth values in order
let x = [true, false, true];
x.sort();
print(x);
x.sort_desc();
print(x);
//= [false, true, true]
//= [true, true, false]
//--- an array of one item is in order
let x = [#{}];
x.sort();
print(x);
//= [#{}]
//--- values of two types have no order
let x = [true, 1];
x.sort();
//! Data type incorrect
//--- an array as JSON
let x = [1, true, (), "a\"b\\c\n", 'x', [], #{}, [[2]], 1..3];
print(x.to_json());
//= [1,true,null,"a\"b\\c\n","x",[],{},[[2]],"1..3"]
//--- a part of a part, in place
let a = [[3, 1], 2];
a[0].sort_desc();
print([a[0].drain(0, 1), a]);
//= [[3], [[1], 2]]
