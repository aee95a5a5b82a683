// a function that changes the array that is sorted or gone through is refused; a captured variable prints as any other
let s = [3, 1, 2];
try {
    s.sort(|x, y| { s.push(9); x - y });
    print("sorted");
} catch {
    print("changed while it is sorted");
}
let a = [1, 2, 3];
try {
    a.retain(|x| { a.push(4); x > 1 });
    print("retained");
} catch {
    print("changed while it is gone through");
}
let x = 1;
let f = || x;
print(x.to_string());
print(x.to_debug());
try { 1 / 0; } catch (error) { print(error.message); }
try { "abc".split(1, 2, 3); } catch (error) { print(error.message); }
