// Closures: called in loops, passed to functions, with variables that they share.
fn apply(f, n) {
    let sum = 0;
    for i in 0..n { sum += f.call(i); }
    sum
}
let k = 3;
let total = apply(|x| x * k + 1, 30000);
let calls = 0;
let counted = |x| { calls += 1; x - calls };
total += apply(counted, 30000);
print(total);
print(calls);
