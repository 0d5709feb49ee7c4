// Object maps: entries by name, read, counted up and removed.
let count = #{};
let seed = 7;
for i in 0..20000 {
    seed = (seed * 1103515245 + 12345) % 2147483648;
    let name = "k" + (seed / 65536 % 100);
    if name in count { count[name] += 1; } else { count[name] = 1; }
}
let point = #{ x: 0, y: 0 };
for i in 0..20000 {
    point.x += i;
    point.y += point.x % 7;
}
let most = 0;
for name in count.keys() { most = max(most, count[name]); }
print(count.len());
print(most);
print(point.x + point.y);
