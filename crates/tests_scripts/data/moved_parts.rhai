// parts that are removed from arrays and texts
let a = [1, [2, 3], "x", 4, 5];
print(a.drain(1, 2));
print(a);
print(a.drain(-1, 5));
print(a.drain(7, 2));
print(a.drain(0..1));
print(a);
let b = [1, 2, 3, 4, 5];
print(b.retain(1, 2));
print(b);
print(b.retain(5, 1));
print(b);

// a shared array is changed for all that share it
let list = [1, 2, 3];
let read = || list.len();
list.drain(0, 2);
print(read.call());

let text = "abcabc";
print(text.index_of("b", 2));
print(text.index_of("b", -5));
print(text.index_of('b', 6));
text.remove("b");
print(text);
