//--- shown
print([1, "a", 'c', true, (), [2, []], #{}]);
//= [1, "a", 'c', true, (), [2, []], #{}]
//--- a comma at the end
print([1, 2,]);
print([]);
//= [1, 2]
//= []
//--- items
let a = [10, 20, 30];
print(a[0]);
print(a[2]);
print(a[-1]);
print(a[-3]);
//= 10
//= 30
//= 30
//= 10
//--- items assigned
let a = [1, 2, 3];
a[1] = "two";
a[-1] += 10;
print(a);
//= [1, "two", 13]
//--- nested
let a = [[1, 2], [3, 4]];
a[1][0] = 9;
a[0][1] *= 5;
print(a);
print(a[1][1]);
//= [[1, 10], [9, 4]]
//= 4
//--- a copy is independent
let a = [1, [2]];
let b = a;
b[1][0] = 9;
b.push(3);
print(a);
print(b);
//= [1, [2]]
//= [1, [9], 3]
//--- joined
print([1] + [2, 3]);
let a = [1];
a += 2;
a += [3, 4];
print(a);
//= [1, 2, 3]
//= [1, 2, 3, 4]
//--- compared
print([1, "a"] == [1, "a"]);
print([1] == [1, 2]);
print([1] != [2]);
print([[1]] == [[1]]);
//= true
//= false
//= true
//= true
//--- computed items
let x = 3;
print([x, x + 1, if x > 2 { "big" } else { "small" }]);
//= [3, 4, "big"]
//--- the index is an expression
let a = [1, 2, 3];
let i = 0;
print(a[i + 1] + a[a[0]]);
//= 4
//--- length
let a = [1, 2, 3];
print(a.len());
print(a.len);
print([].is_empty());
//= 3
//= 3
//= true
//--- of a literal
print([1, 2, 3][1]);
//= 2
//--- the value of the script
[1, "a", 'b']
//= [1, "a", 'b']
