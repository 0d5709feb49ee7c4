// Insertion sort in place, of numbers that are made up.
let list = [];
let seed = 42;
for i in 0..700 {
    seed = (seed * 1103515245 + 12345) % 2147483648;
    list.push(seed % 1000);
}
for i in 1..700 {
    let item = list[i];
    let k = i;
    while k > 0 && list[k - 1] > item {
        list[k] = list[k - 1];
        k -= 1;
    }
    list[k] = item;
}
let sum = 0;
for (item, i) in list { sum += item * i; }
print(sum);
