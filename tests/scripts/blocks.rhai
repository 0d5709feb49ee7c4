//--- the value of a block
let x = { let y = 2; y * 3 };
print(x);
//= 6
//--- with a semicolon at the end
let x = { let y = 2; y * 3; };
print(x);
//= 6
//--- an empty one
let x = {};
print(x == ());
//= true
//--- nested
let x = { { { 7 } } };
print(x);
//= 7
//--- as an operand
print({ let a = 1; a + 1 } * 10);
//= 20
//--- as an argument
fn add(a, b) { a + b }
print(add({ 1 }, { let t = 2; t * t }));
//= 5
//--- that ends with a declaration
let x = { let y = 2; };
print(x == ());
//= true
//--- that changes an outer variable
let n = 1;
let x = { n += 1; n };
print([n, x]);
//= [2, 2]
//--- as the last statement of the script
let a = 40;
{ let b = 2; a + b }
//= 42
