// facts, and rules that make new facts until nothing changes
let rules = [
    #{ name: "bird", when: |facts| facts.wings && facts.feathers, then: |facts| { facts.kind = "bird"; facts } },
    #{ name: "flies", when: |facts| facts.kind == "bird" && facts.weight < 20, then: |facts| { facts.flies = true; facts } },
    #{ name: "penguin", when: |facts| facts.kind == "bird" && facts.flies == () && facts.swims == true, then: |facts| { facts.name = "penguin"; facts } },
    #{ name: "travels", when: |facts| facts.flies == true && facts.home == "north", then: |facts| { facts.plan = ["south", "north"]; facts } }
];

fn infer(facts, rules) {
    let used = [];
    loop {
        let before = facts;
        for rule in rules {
            let condition = rule.when;
            let action = rule.then;
            if rule.name in used || !condition.call(facts) { continue; }
            facts = action.call(facts);
            used.push(rule.name);
        }
        if facts == before { break; }
    }
    facts.used = used;
    facts
}

let swift = #{ wings: true, feathers: true, weight: 1, home: "north" };
print(infer(swift, rules));
print(infer(#{ wings: true, feathers: true, weight: 30, swims: true }, rules));
print(infer(#{ wings: true, feathers: false, weight: 1 }, rules));
rules.reverse();
print(infer(swift, rules).used);
print(swift.len());
try {
    infer(#{ feathers: true }, rules);
} catch (problem) {
    print("wings is no truth value");
}

let discount = [[|n| n > 100, 20], [|n| n > 50, 10], [|n| true, 0]];
let of = |amount| {
    let rule = discount.find(|entry| { let test = entry[0]; test.call(amount) });
    amount - amount * rule[1] / 100
};
print([200, 60, 10].map(of));
