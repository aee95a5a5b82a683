// seeks in a sorted array by halves
fn search(items, wanted) {
    let low = 0;
    let high = items.len() - 1;
    let rounds = 0;
    while low <= high {
        rounds += 1;
        let middle = low + (high - low) / 2;
        let item = items[middle];
        if item == wanted { return #{ at: middle, rounds: rounds }; }
        if item < wanted { low = middle + 1; } else { high = middle - 1; }
    }
    #{ at: -1, rounds: rounds }
}

fn lower_bound(items, wanted) {
    let low = 0;
    let high = items.len();
    while low < high {
        let middle = (low + high) / 2;
        if items[middle] < wanted { low = middle + 1; } else { high = middle; }
    }
    low
}

let items = [2, 3, 5, 7, 11, 13, 17, 19, 23, 29, 31];
print(search(items, 13));
print(search(items, 2));
print(search(items, 31));
print(search(items, 4));
print(search([], 1));
print(lower_bound(items, 12));
print(lower_bound(items, 100));
let names = ["ann", "bob", "cid", "dan"];
print(search(names, "cid").at);
print(lower_bound(names, "bo"));
for value in [6, 1, 40, 18] { items.insert(lower_bound(items, value), value); }
print(items);
let twice = [1, 2, 2, 2, 3];
print(lower_bound(twice, 3) - lower_bound(twice, 2));
