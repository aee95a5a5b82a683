// who stays last in a circle, by an array, by links and by a formula
fn by_array(count, step) {
    let people = [];
    for person in 1..=count { people.push(person); }
    let order = [];
    let at = 0;
    while !people.is_empty() {
        at = (at + step - 1) % people.len();
        order.push(people.remove(at));
    }
    order
}

fn by_links(count, step) {
    let next = [];
    for person in 0..count { next.push((person + 1) % count); }
    let person = count - 1;
    for left in 1..count {
        for round in 1..step { person = next[person]; }
        next[person] = next[next[person]];
    }
    person + 1
}

fn by_formula(count, step) { if count == 1 { 1 } else { (by_formula(count - 1, step) + step - 1) % count + 1 } }

print(by_array(7, 3));
print(by_array(5, 2));
print(by_array(1, 9));
for pair in [[41, 3], [10, 1], [8, 2], [50, 7]] {
    let count = pair[0];
    let step = pair[1];
    print(`${count} by ${step}: ${by_array(count, step)[-1]} ${by_links(count, step)} ${by_formula(count, step)}`);
}
let powers = [];
for count in 1..=17 { powers.push(by_formula(count, 2)); }
print(powers);
