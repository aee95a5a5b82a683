// all orders of some items, all subsets, and the choices of some of them
fn permutations(items) {
    if items.len() <= 1 { return [items]; }
    let all = [];
    for (item, at) in items {
        let rest = items;
        rest.remove(at);
        for order in permutations(rest) { all.push([item] + order); }
    }
    all
}

fn subsets(items) {
    let all = [[]];
    for item in items {
        for subset in all { all.push(subset + [item]); }
    }
    all
}

fn choices(items, count) {
    if count == 0 { return [[]]; }
    let all = [];
    for at in 0..items.len() {
        let rest = items.extract(at + 1);
        for choice in choices(rest, count - 1) { all.push([items[at]] + choice); }
    }
    all
}

print(permutations([1, 2, 3]));
print(permutations(["a", "b"]));
print(permutations([1, 2, 3, 4, 5]).len());
print(subsets([1, 2, 3]));
print(choices(["w", "x", "y", "z"], 2));
print(choices([1, 2, 3, 4, 5, 6], 3).len());

fn next_permutation() {
    let at = this.len() - 2;
    while at >= 0 && this[at] >= this[at + 1] { at -= 1; }
    if at < 0 { return false; }
    let other = this.len() - 1;
    while this[other] <= this[at] { other -= 1; }
    let held = this[at];
    this[at] = this[other];
    this[other] = held;
    let tail = this.split(at + 1);
    tail.reverse();
    this.append(tail);
    true
}
let order = [1, 2, 2];
let orders = [order];
while order.next_permutation() { orders.push(order); }
print(orders);
