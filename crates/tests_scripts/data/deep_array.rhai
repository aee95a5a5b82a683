let a = [];
for i in 0..20000 { a = [a]; }
let text = "" + a;
print(text.len());
a = ();
print("dropped");
