// `??` takes its right side where the left one is `()`, and only then
let settings = #{ colour: "red", size: 0, title: "", hidden: false, limit: () };
print(settings.colour ?? "blue");
print(settings.size ?? 10);
print(settings.title ?? "none");
print(settings.hidden ?? true);
print(settings.limit ?? 99);
print(settings.missing ?? "no such key");
print(settings.missing ?? settings.limit ?? settings.size ?? 7);

let calls = 0;
let costly = || { calls += 1; "computed" };
print(settings.colour ?? costly.call());
print(calls);
print(settings.limit ?? costly.call());
print(calls);

print(() ?? 2 + 3);
print((() ?? 2) * 3);
print(() ?? 1 < 2);
print([1, (), 3].map(|item| item ?? 0));
print([5, 6].get(7) ?? -1);

fn first_of(items) { for item in items { if item != () { return item; } } }
print(first_of([(), (), 4]) ?? "all empty");
print(first_of([(), ()]) ?? "all empty");
fn required(value) { value ?? { throw "required" } }
try { required(()) } catch (problem) { print(problem); }
print(required(8));
let found = ["x"].find(|item| item == "y") ?? { let text = "not"; text + " found" };
print(found);
