// a sorted tree of maps: insertion, the ways through, removal
fn add(value) {
    if value < this.value {
        if this.left == () { this.left = leaf(value); } else { this.left.add(value); }
    } else if value > this.value {
        if this.right == () { this.right = leaf(value); } else { this.right.add(value); }
    }
}

fn leaf(value) { #{ value: value, left: (), right: () } }
fn in_order(tree) { if tree == () { [] } else { in_order(tree.left) + [tree.value] + in_order(tree.right) } }
fn pre_order(tree) { if tree == () { [] } else { [tree.value] + pre_order(tree.left) + pre_order(tree.right) } }
fn height(tree) { if tree == () { 0 } else { 1 + max(height(tree.left), height(tree.right)) } }

fn by_levels(tree) {
    let levels = [];
    let level = [tree];
    while !level.is_empty() {
        levels.push(level.map(|node| node.value));
        let next = [];
        for node in level {
            if node.left != () { next.push(node.left); }
            if node.right != () { next.push(node.right); }
        }
        level = next;
    }
    levels
}

fn without(tree, value) {
    if tree == () { return (); }
    if value < tree.value {
        tree.left = without(tree.left, value);
    } else if value > tree.value {
        tree.right = without(tree.right, value);
    } else {
        if tree.left == () { return tree.right; }
        if tree.right == () { return tree.left; }
        let least = tree.right;
        while least.left != () { least = least.left; }
        tree.value = least.value;
        tree.right = without(tree.right, least.value);
    }
    tree
}

let tree = leaf(50);
for value in [30, 70, 20, 40, 60, 80, 40, 65] { tree.add(value); }
print(in_order(tree));
print(pre_order(tree));
print(by_levels(tree));
print(height(tree));
let smaller = without(without(tree, 50), 20);
print(pre_order(smaller));
print(tree.value);
print(without(leaf(1), 1) == ());
