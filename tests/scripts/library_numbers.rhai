//--- abs and sign
print(abs(-5));
let x = -3;
print(x.abs());
print([x.sign(), sign(0), sign(9)]);
//= 5
//= 3
//= [-1, 0, 1]
//--- min and max
print(min(3, 5));
print(max(3, 5));
let x = 2;
print(x.max(-2));
//= 3
//= 5
//= 2
//--- zero, even and odd
let n = 4;
print([n.is_zero(), n.is_even(), n.is_odd()]);
print([is_zero(0), is_even(-3), is_odd(-3)]);
//= [false, true, false]
//= [true, false, true]
//--- other bases
let n = 255;
print([n.to_hex(), n.to_octal(), n.to_binary()]);
print((-1).to_hex());
//= ["ff", "377", "11111111"]
//= ffffffffffffffff
//--- texts to integers
print(parse_int("42") + 1);
print(parse_int("-17"));
print(parse_int("ff", 16));
print(parse_int("1010", 2));
//= 43
//= -17
//= 255
//= 10
//--- integers to texts
print(to_string(42).len());
print(42.to_string() + 1);
print(7.to_debug());
//= 2
//= 421
//= 7
//--- integers to integers and characters
print(5.to_int());
print(65.to_char());
//= 5
//= A
//--- types
print(type_of(1));
print(type_of(true));
print(type_of("x"));
print(type_of([]));
print(type_of(#{}));
print(1.type_of());
//= i64
//= bool
//= string
//= array
//= map
//= i64
//--- to_debug quotes
print(to_debug("a\n"));
print('c'.to_debug());
print(["x"].to_string());
print((true).to_string());
//= "a\n"
//= 'c'
//= ["x"]
//= true
//--- bits that are read and set
let x = 5;
x.set_bit(1, true);
print(x);
print([x.get_bit(2), get_bit(x, 3), x.get_bit(-1), (-1).get_bit(63)]);
x.set_bit(0, false);
x.set_bit(-1, true);
print(x < 0);
x.set_bit(63, false);
print(x);
//= 7
//= [true, false, false, true]
//= true
//= 6
//--- several bits
let x = 0b10110100;
print([x.get_bits(2, 3), x.get_bits(2..5), x.get_bits(2..=4), x.get_bits(0, 64), x.get_bits(4, 0)]);
print([(-1).get_bits(60, 99), (-1).get_bits(-4, 4), (-8).get_bits(0, 64)]);
x.set_bits(0, 4, 0b1111);
print(x.to_binary());
x.set_bits(4..=7, 0);
print(x.to_binary());
x.set_bits(62..64, -1);
x.set_bits(1..1, -1);
print(x.to_hex());
x.set_bits(0, 64, -3);
print(x);
//= [5, 5, 5, 180, 0]
//= [15, 15, -8]
//= 10111111
//= 1111
//= c00000000000000f
//= -3
//--- bits by indices
let x = 0b10110100;
print([x[2], x[3], x[2..5], x[2..=4], x[0..64], x[5..5]]);
let y = 0;
y[2] = true;
print(y);
y[2] = false;
y[4..8] = 0b111010;
print(y);
let m = #{ n: [0] };
m.n[0][-1] = true;
print(m.n[0] < 0);
//= [true, false, 5, 5, 180, 0]
//= 4
//= 160
//= true
//--- no bit lies there
let x = 0;
x.set_bit(64, true)
//! Index out of bounds: 64 (length 64)
//--- no bits lie there
let x = 0;
x[60..=64]
//! Index out of bounds: 64 (length 64)
//--- no bits lie below the lowest
let x = 0;
x[-1..3]
//! Index out of bounds: -1 (length 64)
//--- a bit is a truth value
let x = 0;
x[0] = 1;
//! Data type incorrect: expecting a truth value
//--- a value is taken
let x = 42;
let y = take(x);
print([y, x]);
let a = [1, 2];
let b = a.take();
print([a, b]);
let m = #{ a: "t" };
print(m.a.take());
print(m);
//= [42, ()]
//= [(), [1, 2]]
//= t
//= #{"a": ()}
//--- closures have no name of their own
fn foo() { 1 }
let f = |x| x + 1;
print([Fn("foo").is_anonymous, f.is_anonymous, f.is_anonymous()]);
//= [false, true, true]
//--- a constant isn't taken
const C = 5;
print([C.take(), C]);
//= [5, 5]
//--- an op-assignment to bits
let x = 0;
x[2] |= true;
print(x);
x[1..=2] += 1;
print(x);
let m = #{ x: 8 };
m.x[0] |= true;
print(m.x);
//= 4
//= 6
//= 9
//--- each bit
let x = 0b1010;
print([5.bits(0, 4), x.bits(1, 3), x.bits(1..=3), x.bits(1..3), x.bits(3, 0), x.bits(5..2)]);
print([(-1).bits(62), x.bits(-2), bits(x, 60, 99).len, x.bits().len, (-1).bits[63]]);
let n = 0;
for bit in x.bits { if bit { n += 1; } }
print(n);
//= [[true, false, true, false], [true, false, true], [true, false, true], [true, false], [], []]
//= [[true, true], [false, false], 4, 64, true]
//= 2
//--- no bits lie past the highest
5.bits(64)
//! Index out of bounds: 64 (length 64)
//--- no bits lie before the lowest
5.bits(-65, 1)
//! Index out of bounds: -65 (length 64)
