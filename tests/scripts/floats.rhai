//--- arithmetic
print([1.5 + 2.25, 1.5 - 2.25, 1.5 * 4.0, 7.5 / 2.5, 7.5 % 2.0, 2.0 ** 10.0, 2.0 ** (-1.0), 9.0 ** 0.5]);
//= [3.75, -0.75, 6.0, 3.0, 1.5, 1024.0, 0.5, 3.0]

//--- a remainder has the sign of the dividend
print([-7.5 % 2.0, 7.5 % -2.0, 5.5 % 0.5]);
//= [-1.5, 1.5, 0.0]

//--- with integers
print([1 + 0.5, 0.5 + 1, 7.0 / 2, 7 / 2.0, 3 * 1.5, 2 - 0.5, 7 % 2.5, 2 ** 0.5 > 1.41, 2.0 ** 3]);
//= [1.5, 1.5, 3.5, 3.5, 4.5, 1.5, 2.0, true, 8.0]

//--- signs
let x = 1.5;
print([-x, +x, -(-x)]);
print(-0.0);
//= [-1.5, 1.5, 1.5]
//= 0.0

//--- op-assignments
let x = 1.5;
x += 1; x *= 2.0; x -= 0.5; x /= 3; x **= 2; x %= 2.0;
print(x);
//= 0.25

//--- an op-assignment may make a floating point number of an integer
let x = 1;
x += 0.5;
print(x);
//= 1.5

//--- op-assignments to parts
let a = [1.5, 2];
let m = #{x: 0.5};
a[0] += 1.25; a[1] *= 1.5; m.x -= 1;
print(a);
print(m.x);
//= [2.75, 3.0]
//= -0.5

//--- a division by zero is no fault
print([1.0 / 0.0, -1.0 / 0, 1 / 0.0, 1.0 / -0.0]);
print([0.0 / 0.0, 1.5 % 0.0]);
//= [inf, -inf, inf, -inf]
//= [NaN, NaN]

//--- comparisons
print([1.5 < 2.5, 1.5 <= 1.5, 1.5 > 2.5, 2.5 >= 2.5, 1.5 == 1.5, 1.5 != 1.5]);
//= [true, true, false, true, true, false]

//--- comparisons with integers
print([1 == 1.0, 1.0 == 1, 1 != 1.0, 1 < 1.5, 1.5 < 2, 2 > 1.5, 2 <= 1.5, 2.0 >= 2]);
//= [true, true, false, true, true, true, false, true]

//--- both zeros are equal
print([0.0 == -0.0, 0 == -0.0, -0.0 < 0.0]);
//= [true, true, false]

//--- NaN is equal to nothing, and has no order
let n = 0.0 / 0.0;
print([n == n, n != n, n < 1.0, n >= 1.0, n == 1, [n] == [n]]);
//= [false, true, false, false, false, false]

//--- other types are never equal to a number
print([1.5 == "1.5", 1.5 == '1', 1.5 == true, 1.5 == (), 1.5 == [1.5], 1.5 < "2"]);
//= [false, false, false, false, false, false]

//--- arrays and object maps of them
print([[1.0, 2.5] == [1, 2.5], #{a: 1.5} == #{a: 1.5}, #{a: 1} == #{a: 1.0}, 2.5 in [1, 2.5], 2.0 in [1, 2]]);
//= [true, true, true, true, true]

//--- printed
print(1.0);
print(-2.50);
print(0.1 + 0.2);
print(1e10);
print(1.5e300);
print(1e-10);
print("" + 0.5 + "|" + 3.0);
print(`${1.0 / 3.0}`);
//= 1.0
//= -2.5
//= 0.30000000000000004
//= 10000000000.0
//= 1.5e300
//= 1e-10
//= 0.5|3.0
//= 0.3333333333333333

//--- as text
print([(1.5).to_string(), (2.0).to_string(), (2.0).to_debug(), type_of(1.5)]);
//= ["1.5", "2.0", "2.0", "f64"]

//--- rounding
print([(2.5).floor(), (-2.5).floor(), (2.5).ceiling(), (-2.5).ceiling(), (2.5).round(), (-2.5).round(), (2.4).round()]);
print([(2.75).int(), (-2.75).int(), (2.75).fraction(), (-2.75).fraction()]);
//= [2.0, -3.0, 3.0, -2.0, 3.0, -3.0, 2.0]
//= [2.0, -2.0, 0.75, -0.75]

//--- as properties
let x = 2.75;
print([x.floor, x.ceiling, x.round, x.int, x.fraction, x.is_nan, x.is_finite, x.is_infinite, x.is_zero]);
//= [2.0, 3.0, 3.0, 2.0, 0.75, false, true, false, false]

//--- what kind of number it is
let inf = 1.0 / 0.0;
let nan = inf - inf;
print([is_nan(nan), is_nan(inf), is_infinite(inf), is_infinite(-inf), is_infinite(nan), is_finite(1.5), is_finite(inf)]);
print([is_zero(0.0), is_zero(-0.0), is_zero(0.5)]);
//= [true, false, true, true, false, true, false]
//= [true, true, false]

//--- sign and size
print([sign(2.5), sign(-2.5), sign(0.0), sign(-1.0 / 0.0)]);
print([abs(-2.5), abs(2.5), (-2.5).abs()]);
//= [1, -1, 0, -1]
//= [2.5, 2.5, 2.5]

//--- NaN has no sign
sign(0.0 / 0.0)
//! Sign of NaN is undefined

//--- the smaller and the larger one
print([min(1.5, 2.5), max(1.5, 2.5), min(1, 2.5), max(1, 2.5), min(2.5, 1), max(2.5, 1)]);
//= [1.5, 2.5, 1.0, 2.5, 1.0, 2.5]

//--- of NaN and a number that number
let nan = 0.0 / 0.0;
print([min(nan, 1.5), max(1.5, nan)]);
//= [1.5, 1.5]

//--- to integers and from them
print([to_int(3.99), to_int(-3.99), (0.5).to_int(), to_int(-9223372036854775808.0)]);
print([to_float(3), 7.to_float(), to_float(1.5)]);
//= [3, -3, 0, -9223372036854775808]
//= [3.0, 7.0, 1.5]

//--- to an integer that doesn't fit
to_int(1e20)
//! Integer overflow: to_int(100000000000000000000)

//--- 2 to the power of 63 doesn't fit
to_int(9223372036854775808.0)
//! Integer overflow

//--- NaN is no integer
to_int(0.0 / 0.0)
//! Integer overflow: to_int(NaN)

//--- what a catch binds of it
try { to_int(1.0 / 0.0) } catch (e) { print(e.error); print(e.message) }
//= ErrorArithmetic
//= Integer overflow: to_int(inf)

//--- roots, powers and logarithms
print([sqrt(16.0), exp(0.0), ln(1.0), log(1000.0), log(8.0, 2.0), hypot(3.0, 4.0)]);
//= [4.0, 1.0, 0.0, 3.0, 3.0, 5.0]

//--- angles
print([sin(0.0), cos(0.0), tan(0.0), asin(0.0), acos(1.0), atan(0.0), atan(0.0, 1.0)]);
print([sinh(0.0), cosh(0.0), tanh(0.0), asinh(0.0), acosh(1.0), atanh(0.0)]);
print([to_degrees(PI()), to_radians(180.0) == PI(), sin(PI() / 2.0)]);
//= [0.0, 1.0, 0.0, 0.0, 0.0, 0.0, 0.0]
//= [0.0, 1.0, 0.0, 0.0, 0.0, 0.0]
//= [180.0, true, 1.0]

//--- constants
print([PI() > 3.14159, PI() < 3.1416, E() > 2.71828, E() < 2.71829]);
//= [true, true, true, true]

//--- an integer has no square root
sqrt(16)
//! Function not found: sqrt (i64)

//--- a text has no sine
sin("x")
//! Function not found: sin (string)

//--- no bits
1.5 & 1.0
//! Function not found: & (f64, f64)

//--- no shifts
1.5 << 1
//! Function not found: << (f64, i64)

//--- no range
let a = 1.0;
a..2.0
//! Function not found: .. (f64, f64)

//--- out of texts
print([parse_float("1.5"), parse_float(" -2e3 "), parse_float("7"), "0.25".parse_float()]);
//= [1.5, -2000.0, 7.0, 0.25]

//--- out of a text that spells no number
parse_float("1.5x")
//! Error parsing floating-point number '1.5x': invalid float literal

//--- out of an empty text
parse_float("")
//! Error parsing floating-point number '': cannot parse float from empty string

//--- sorted
let a = [2.5, -1.0, 10.0, 0.5];
a.sort();
print(a);
a.sort_desc();
print(a);
//= [-1.0, 0.5, 2.5, 10.0]
//= [10.0, 2.5, 0.5, -1.0]

//--- integers and floating point numbers have no common order
[1.5, 1].sort()
//! floating-point numbers alone to sort

//--- found in arrays
let a = [0.5, 1, 2.5];
print([a.index_of(2.5), a.contains(1.0), a.index_of(1.0), a.contains(0.0)]);
//= [2, true, 1, false]

//--- to JSON
print(#{a: 1.0, b: [0.5, -2.5e300], c: 1.0 / 0.0, d: 0.0 / 0.0}.to_json());
//= {"a":1.0,"b":[0.5,-2.5e300],"c":null,"d":null}

//--- out of JSON
let m = parse_json(`{"a": 1.5, "b": [1e3, -0.25, 7], "c": 10000000000000000000}`);
print([m.a, m.b, m.c, type_of(m.b[2])]);
//= [1.5, [1000.0, -0.25, 7], 1e19, "i64"]

//--- cases of a switch
fn f(x) { switch x { 1.5 => "a", 2.0 => "b", 0..10 => "r", _ => "other" } }
print([f(1.5), f(2.0), f(2), f(3.5), f(0.0 / 0.0)]);
//= ["a", "b", "r", "other", "other"]

//--- in functions, closures and loops
fn mean(a) { let sum = 0.0; for x in a { sum += x; } sum / a.len() }
let scale = 0.5;
let f = |x| x * scale;
print([mean([1, 2.5, 4]), f.call(3), [1.5, 2.5].map(|x| x * 2)]);
//= [2.5, 1.5, [3.0, 5.0]]

//--- as conditions
if 1.0 { 1 }
//! bool

//--- operators as functions
let f = Fn("+");
print(f.call(1.5, 2));
//= 3.5
