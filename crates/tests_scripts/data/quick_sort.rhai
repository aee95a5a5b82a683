// quicksort: once with new arrays, once in place
fn sorted(items) {
    if items.len() < 2 { return items; }
    let middle = items[items.len() / 2];
    let less = items.filter(|item| item < middle);
    let same = items.filter(|item| item == middle);
    let more = items.filter(|item| item > middle);
    sorted(less) + same + sorted(more)
}

fn exchange(left, right) {
    let held = this[left];
    this[left] = this[right];
    this[right] = held;
}

fn quick_sort(first, last) {
    if first >= last { return; }
    let pivot = this[last];
    let border = first;
    for at in first..last {
        if this[at] < pivot {
            this.exchange(at, border);
            border += 1;
        }
    }
    this.exchange(border, last);
    this.quick_sort(first, border - 1);
    this.quick_sort(border + 1, last);
}

let numbers = [33, -4, 15, 8, 15, 0, 99, 7, -20, 8];
print(sorted(numbers));
print(numbers);
numbers.quick_sort(0, numbers.len() - 1);
print(numbers);
print(sorted(["pear", "Apple", "fig", "apple", "date"]));
print(sorted(['q', 'z', 'a']));
print(sorted([]) == []);

fn kth(items, rank) {
    let middle = items[0];
    let less = items.filter(|item| item < middle);
    let same = items.filter(|item| item == middle).len();
    if rank < less.len() { kth(less, rank) }
    else if rank < less.len() + same { middle }
    else { kth(items.filter(|item| item > middle), rank - less.len() - same) }
}
print(kth([9, 1, 8, 2, 7, 3], 0));
print(kth([9, 1, 8, 2, 7, 3], 3));
print(kth([9, 1, 8, 2, 7, 3], 5));
