// Strings that grow, are interpolated, searched, split and compared.
let text = "";
for i in 0..5000 { text += `item${i % 10},`; }
let count = 0;
for part in text.split(",") {
    if part.starts_with("item") && part.ends_with("7") { count += part.len(); }
}
print(count);
let found = 0;
for i in 0..5000 {
    let word = "w" + i;
    if word.contains("99") { found += word.len(); }
    if word.to_upper() == "W1234" { found += 1; }
}
print(found);
