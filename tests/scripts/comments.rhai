//--- to the end of the line
print(1); // print(2);
// print(3);
print(4);
//= 1
//= 4
//--- between
print(/* one */ 1 /* two */ + 2);
//= 3
//--- nested
/* outer /* inner */ still outer */
print("seen");
//= seen
//--- over several lines
/* one
   two
*/
print("seen");
//= seen
//--- doc comments
/// Adds one.
fn one_more(x) { x + 1 }
/** Adds two. */
fn two_more(x) { x + 2 }
print(one_more(1) + two_more(1));
//= 5
//--- no comment in a string
print("a // b /* c */");
//= a // b /* c */
//--- the first line names the program
#!/usr/bin/env grain
print("started");
//= started
//--- nothing but a comment
// nothing
//--- blank lines and semicolons

;;
print("seen");;

//= seen
