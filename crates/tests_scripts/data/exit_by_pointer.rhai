// function pointers to `exit`
let leave = Fn("exit");
print(leave.name());
let guarded = |value, stop| if value > 2 { stop.call(value) } else { value };
print([1, 2].map(|value| guarded.call(value, leave)));
try {
    print([2, 3, 4].map(|value| guarded.call(value, leave)));
} catch (problem) {
    print(problem);
}
print("not reached");
