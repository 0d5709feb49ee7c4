//--- ends
let r = 2..5;
print([r.start, r.end]);
print([(2..=5).start(), (2..=5).end()]);
//= [2, 5]
//= [2, 5]
//--- kinds
print([(1..3).is_exclusive(), (1..3).is_inclusive()]);
print([(1..=3).is_exclusive(), (1..=3).is_inclusive()]);
//= [true, false]
//= [false, true]
//--- is_empty
print([(3..3).is_empty(), (3..=3).is_empty(), (5..1).is_empty()]);
//= [true, false, true]
//--- contains
let r = 1..=3;
print([r.contains(0), r.contains(1), r.contains(3), r.contains(4)]);
//= [false, true, true, false]
//--- a range with a step
print(range(1, 10, 2));
print(range(10, 0, -3));
print(range(5, 5, 1));
let sum = 0;
for x in range(0, 100, 25) { sum += x; }
print(sum);
//= [1, 3, 5, 7, 9]
//= [10, 7, 4, 1]
//= []
//= 150
//--- a range with no step
range(1, 10, 0)
//! a step that isn't zero
//@ 1:1
//--- steps of a range
print(range(0..10, 3));
print(range(10..0, -4));
print([range(0..10, -1), range(3..3, 1)]);
//= [0, 3, 6, 9]
//= [10, 6, 2]
//= [[], []]
//--- floats with a step
print(range(0.0, 1.0, 0.25));
print(range(1.0, 0.0, -0.5));
print([range(0.0, 1.0, -0.5), range(1.0, 1.0, 0.5), range(0.0 / 0.0, 1.0, 1.0)]);
//= [0.0, 0.25, 0.5, 0.75]
//= [1.0, 0.5]
//= [[], [], []]
//--- a step of zero between floats
range(0.0, 1.0, 0.0)
//! a step that isn't zero
//--- the largest steps
print(range(-9223372036854775807, 9223372036854775807, 9223372036854775807));
print(range(9223372036854775807, 0, 1));
print(range(9223372036854775806, 9223372036854775807, 9223372036854775807));
//= [-9223372036854775807, 0]
//= []
//= [9223372036854775806]
//--- steps have a limit
range(0, 9223372036854775807, 1)
//! Size of data too large
//--- steps of floats have a limit
range(0.0, 1e300, 1.0)
//! Size of data too large
//--- an endless range of floats
range(0.0, 1.0 / 0.0, 1e300)
//! Size of data too large
