fn fib(n) {
    if n < 2 { n } else { fib(n - 1) + fib(n - 2) }
}

let known = #{};
for n in 5..8 {
    known[`fib ${n}`] = fib(n);
}
print(known);
fib(20)
