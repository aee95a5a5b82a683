// sets that are joined, with shortened ways to their roots
fn find_root(at) {
    while this.parent[at] != at {
        this.parent[at] = this.parent[this.parent[at]];
        at = this.parent[at];
    }
    at
}

fn unite(left, right) {
    let first = this.find_root(left);
    let second = this.find_root(right);
    if first == second { return false; }
    if this.size[first] < this.size[second] {
        let held = first;
        first = second;
        second = held;
    }
    this.parent[second] = first;
    this.size[first] += this.size[second];
    this.count -= 1;
    true
}

fn new_sets(count) {
    let sets = #{ parent: [], size: [], count: count };
    for at in 0..count {
        sets.parent.push(at);
        sets.size.push(1);
    }
    sets
}

let sets = new_sets(8);
for pair in [[0, 1], [2, 3], [1, 3], [0, 2], [5, 6]] { print(`${pair} ${sets.unite(pair[0], pair[1])}`); }
print(sets.count);
print(sets.find_root(3) == sets.find_root(0));
print(sets.find_root(4) == sets.find_root(5));
print(sets.size[sets.find_root(2)]);

// a cheapest tree that joins all
let edges = [[7, 0, 1], [5, 1, 2], [8, 0, 2], [9, 1, 3], [7, 2, 4], [5, 3, 4], [15, 1, 4]];
edges.sort(|left, right| left[0] - right[0]);
let joined = new_sets(5);
let chosen = edges.filter(|edge| edge[0] > 0 && edge[1] != edge[2]);
let total = 0;
for edge in chosen {
    if joined.unite(edge[1], edge[2]) {
        total += edge[0];
        print(edge);
    }
}
print(total);
