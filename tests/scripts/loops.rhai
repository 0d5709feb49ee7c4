//--- while
let n = 3;
while n > 0 {
    print(n);
    n -= 1;
}
//= 3
//= 2
//= 1
//--- while that never runs
while false { print("never"); }
print("after");
//= after
//--- loop and break
let n = 0;
loop {
    n += 1;
    if n == 5 { break; }
}
print(n);
//= 5
//--- continue
let n = 0;
while n < 6 {
    n += 1;
    if n % 2 == 0 { continue; }
    print(n);
}
//= 1
//= 3
//= 5
//--- do while
let n = 0;
do {
    n += 1;
    print(n);
} while n < 2;
//= 1
//= 2
//--- do until
let n = 0;
do {
    n += 1;
} until n >= 4;
print(n);
//= 4
//--- do runs once
do { print("once"); } while false;
//= once
//--- the value of break
let n = 0;
let found = loop {
    n += 7;
    if n % 5 == 0 { break n; }
};
print(found);
//= 35
//--- the value of break in while
let n = 0;
let found = while n < 10 {
    n += 1;
    if n == 4 { break "four"; }
};
print(found);
//= four
//--- without break it is unit
let x = while false { };
print(x == ());
//= true
//--- nested
let pairs = [];
let a = 0;
while a < 3 {
    let b = 0;
    while b < 3 {
        b += 1;
        if b == 2 { continue; }
        if a == 1 { break; }
        pairs.push([a, b]);
    }
    a += 1;
}
print(pairs);
//= [[0, 1], [0, 3], [2, 1], [2, 3]]
//--- a variable of the body is new in each round
let n = 0;
while n < 2 {
    let seen = 0;
    seen += 1;
    print(seen);
    n += 1;
}
//= 1
//= 1
//--- collatz
let n = 27;
let steps = 0;
while n != 1 {
    n = if n % 2 == 0 { n / 2 } else { 3 * n + 1 };
    steps += 1;
}
print(steps);
//= 111
//--- break inside of an expression
let r = loop { 1 + { break 5; } };
print(r);
//= 5
