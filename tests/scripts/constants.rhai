//--- declared
const ANSWER = 42;
print(ANSWER);
//= 42
//--- by expression
const A = 6;
const B = A * 7;
print(B);
//= 42
//--- a copy can be changed
const LIST = [1, 2];
let list = LIST;
list.push(3);
print(LIST);
print(list);
//= [1, 2]
//= [1, 2, 3]
//--- shadowed by a variable
const X = 1;
let X = X + 1;
X += 1;
print(X);
//= 3
//--- in a block
const X = 1;
{
    const X = 2;
    print(X);
}
print(X);
//= 2
//= 1
//--- read in a function
const LIMIT = 10;
fn limited(x) { if x > global::LIMIT { global::LIMIT } else { x } }
print(limited(5));
print(limited(50));
//= 5
//= 10
//--- read in a loop
const STEP = 3;
let sum = 0;
for i in 0..4 { sum += STEP; }
print(sum);
//= 12
//--- a map that is read
const M = #{ a: [1, 2] };
print(M.a[1]);
//= 2
//--- a method or a function gets a copy of a constant
const LIST = [1];
LIST.push(2);
push(LIST, 3);
print(LIST);
print(LIST.len());
//= [1]
//= 1
//--- a method gets a copy of a part of a constant
const M = #{ a: [1], n: 1 };
M.a.push(2);
print(M.a);
print(M.a.len());
//= [1]
//= 1
//--- a function of the script gets a copy of a constant as this
fn grow(by) { this += by; this }
const X = 1;
print(X.grow(2));
print(X);
//= 3
//= 1
//--- a constant in a block hides a variable
let x = [1];
x.push(2);
{
    const x = x;
    x.push(3);
    print(x);
}
x.push(4);
print(x);
//= [1, 2]
//= [1, 2, 4]
//--- a function sees a constant of operators on literals
const LIMIT = 6 * 7;
fn f() { global::LIMIT }
print(f() + LIMIT);
//= 84
//--- a function gets a constant array anew
const LIST = [1, [2, 3], #{ a: 4 }];
fn f() { let x = global::LIST; x.push(5); x.len() + global::LIST.len() }
print(f());
//= 7
//--- an exported constant
export const X = 1;
export let y = 2;
let z = 3;
export z;
export z as other;
print(X + y + z);
//= 6
