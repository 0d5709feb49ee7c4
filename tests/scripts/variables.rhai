//--- declared and assigned
let x = 1;
print(x);
x = "text";
print(x);
//= 1
//= text
//--- without a value
let x;
print(x == ());
print(type_of(x));
//= true
//= ()
//--- shadowed
let x = 1;
let x = x + 1;
let x = `${x}!`;
print(x);
//= 2!
//--- shadowed in a block
let x = 1;
{
    let x = 2;
    print(x);
    x = 3;
    print(x);
}
print(x);
//= 2
//= 3
//= 1
//--- assigned from a block
let x = 1;
{
    x = 2;
    {
        x += 3;
    }
}
print(x);
//= 5
//--- exchanged
let a = 1;
let b = 2;
let t = a;
a = b;
b = t;
print([a, b]);
//= [2, 1]
//--- the same name in two blocks
{ let x = 1; print(x); }
{ let x = "two"; print(x); }
//= 1
//= two
//--- names
let _x = 1;
let x_1 = 2;
let camelCase = 3;
print(_x + x_1 + camelCase);
//= 6
//--- many
let a = 1; let b = a + 1; let c = b + 1; let d = c + 1; let e = d + 1;
print(a * 10000 + b * 1000 + c * 100 + d * 10 + e);
//= 12345
//--- the value of a declaration
let x = 5
//--- the value of an assignment
let x = 5;
x = 6;
//--- not before a name that begins with `in`
let index = false;
let inner = true;
print(!index);
print(!inner);
//= true
//= false
//--- whether a variable is declared
let x = 1;
print(is_def_var("x"));
const Y = 2;
print(is_def_var("Y"));
{ let inner = 1; print(is_def_var("inner")); }
for item in [1] { print(is_def_var("item")); }
fn f(param) { is_def_var("param") }
print(f(1));
//= true
//= true
//= true
//= true
//= true
//--- methods of truth values
print(true.to_string() + "!");
print(false.to_string().len());
print(true.type_of());
//= true!
//= 5
//= bool
