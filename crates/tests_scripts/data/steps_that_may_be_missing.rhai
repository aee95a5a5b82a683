// `?.` and `?[` stop at `()`, and nothing behind is evaluated
let people = #{
    ann: #{ name: "Ann", pets: [#{ name: "Rex", age: 3 }], address: #{ city: "Oslo" } },
    bob: #{ name: "Bob", pets: [] }
};
for key in ["ann", "bob", "cid"] {
    let person = people[key];
    print(`${person?.name ?? key + " is unknown"}: ${person?.address?.city ?? "nowhere"}`);
}
print(people.ann.pets[0]?.name);
print(people.bob.pets.get(0)?.name ?? "no pet");
print(people.cid?.pets[0].name.len() ?? "nobody");
print(people.bob?.pets.len());

let nothing = ();
print(nothing?[0] ?? "nothing there");
let list = [[1, 2], ()];
print(list[0]?[1]);
print(list[1]?[1] ?? "empty");
print(list[1]?[1].no_such_function() ?? "nothing is called");

fn find_person(people, name) {
    for key in people.keys() { if people[key].name == name { return people[key]; } }
    ()
}
print(find_person(people, "Ann")?.pets.len());
print(find_person(people, "Eve")?.pets.len() ?? 0);
print(type_of(find_person(people, "Eve")?.pets));
try {
    print(people.cid.name);
} catch (problem) {
    print(`refused in line ${problem.line}`);
}
let depth = #{ next: #{ next: #{ next: () } } };
let steps = 0;
while depth?.next != () { depth = depth.next; steps += 1; }
print(steps);
