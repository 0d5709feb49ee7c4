//--- one hash
print(#"C:\new\table"#);
//= C:\new\table
//--- quotes inside
print(#"say "hi""#);
//= say "hi"
//--- two hashes
print(##"a "# b"##);
//= a "# b
//--- no interpolation
let x = 1;
print(#"${x}"#);
//= ${x}
//--- several lines
print(#"one
two"#);
//= one
//= two
//--- same as escaped
print(#"a\b"# == "a\\b");
//= true
