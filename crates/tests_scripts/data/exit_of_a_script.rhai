// a script's own `exit` comes first, by its number of parameters
fn exit(what) { print("not yet: " + what); what * 2 }
print(exit(4));
let exit = "a variable";
print(exit);
let leave = Fn("exit");
print(leave.call(1));
exit();
print("not reached");
