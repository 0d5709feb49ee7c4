//--- an expression
let x = 41;
print(`x is ${x + 1}`);
//= x is 42
//--- several
let a = "left";
let b = 'r';
print(`${a}-${b}-${true}`);
//= left-r-true
//--- at both ends
let n = 3;
print(`${n}`);
print(`${n}${n}`);
//= 3
//= 33
//--- statements
print(`twice: ${let y = 21; y * 2}.`);
//= twice: 42.
//--- nested
print(`a${`b${1 + 1}`}c`);
//= ab2c
//--- with a brace inside
print(`m: ${#{a: 1}.a}!`);
//= m: 1!
//--- no escapes
print(`a\tb`);
//= a\tb
//--- a dollar alone
print(`cost: $5`);
//= cost: $5
//--- several lines
print(`one
two`);
//= one
//= two
//--- the first line end is dropped
print(`
one
two`);
//= one
//= two
//--- arrays and unit
print(`${[1, "a"]} and ${()}.`);
//= [1, "a"] and .
//--- quotes
print(`"quoted" and 'single'`);
//= "quoted" and 'single'
//--- in a function call
fn shout(text) { text + "!" }
let name = "bob";
print(shout(`hi ${name}`));
//= hi bob!
