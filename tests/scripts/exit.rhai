//--- ends the script
print("a");
exit();
print("b");
//= a

//--- with a value
exit(42);
1
//= 42

//--- in a function, in a loop
fn f(x) { if x > 2 { exit(x * 10); } x }
for i in 0..10 { f(i); }
print("never");
//= 30

//--- no handler catches it
try { exit("done"); } catch { print("never"); }
print("never");
//= done

//--- of two values
exit(1, 2)
//! Function not found: exit (i64, i64)
