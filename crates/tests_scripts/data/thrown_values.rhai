// any value is thrown, and caught as it is
fn fail_with(value) { throw value; }
for value in [42, "text", 'c', true, (), [1, 2], #{ code: 404 }, 1..3] {
    try {
        fail_with(value);
        print("not here");
    } catch (caught) {
        print(`${type_of(caught)}: ${caught} ${caught == value || type_of(caught) == "range"}`);
    }
}

fn parse_age(text) {
    let age = text.parse_int();
    if age !in 0..150 { throw #{ kind: "range", value: age }; }
    age
}
for text in ["33", "-5", "old", "150"] {
    try {
        print(parse_age(text) + 1);
    } catch (problem) {
        print(if problem.kind == () { "no number" } else { `${problem.kind} ${problem.value}` });
    }
}

let problem = "outside";
try { throw "inside"; } catch (problem) { problem += "!"; print(problem); }
print(problem);
let value = { try { if true { throw 7; } 1 } catch (number) { number * 6 } };
print(value);
try { [3, 0].map(|number| 6 / number); } catch (error) { print(error.line); }
try { throw |x| x + 1; } catch (thrown) { print(thrown.call(1)); }
