// Values thrown and caught, in place and out of calls.
fn checked(n) { if n % 3 == 0 { throw n; } n }
let sum = 0;
let caught = 0;
for i in 0..30000 {
    try { sum += checked(i); } catch (e) { caught += e; }
}
print(sum);
print(caught);
