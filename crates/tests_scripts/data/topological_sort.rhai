// an order in which tasks can be done, and the rounds that forbid one
fn ordered(needs) {
    let open = #{};
    for task in needs.keys() {
        open[task] = needs[task].len();
        for need in needs[task] { if need !in needs { open[need] = 0; } }
    }
    let ready = open.keys().filter(|task| open[task] == 0);
    let order = [];
    while !ready.is_empty() {
        let task = ready.shift();
        order.push(task);
        for other in needs.keys() {
            if task in needs[other] {
                open[other] -= 1;
                if open[other] == 0 { ready.push(other); }
            }
        }
    }
    if order.len() < open.len() { throw open.keys().filter(|task| open[task] > 0); }
    order
}

fn levels(needs) {
    let level = #{};
    for task in ordered(needs) {
        level[task] = (needs[task] ?? []).reduce(|most, need| max(most, level[need] + 1), 0);
    }
    level
}

let breakfast = #{
    eat: ["fry", "toast", "brew"],
    fry: ["crack", "heat"],
    crack: ["fetch"],
    toast: ["slice"],
    brew: ["boil"]
};
let order = ordered(breakfast);
print(order);
print(levels(breakfast));
let broken = 0;
for task in breakfast.keys() {
    for need in breakfast[task] { if order.index_of(need) > order.index_of(task) { broken += 1; } }
}
print(broken);
breakfast.fetch = ["eat"];
try { ordered(breakfast); } catch (stuck) { print(stuck); }
print(ordered(#{}));
