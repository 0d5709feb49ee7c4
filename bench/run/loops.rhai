// Arithmetic and conditions in nested loops.
let sum = 0;
for a in 0..600 {
    let b = 0;
    while b < 600 {
        if (a + b) % 3 == 0 { sum += a * b; } else { sum -= b; }
        b += 1;
    }
}
print(sum);
