// selection sort of several kinds of items by what measures them
fn smallest_from(items, start, measure) {
    let best = start;
    for at in start + 1..items.len() {
        if measure.call(items[at]) < measure.call(items[best]) { best = at; }
    }
    best
}

fn selection_sort(items, measure) {
    for start in 0..items.len() {
        let best = smallest_from(items, start, measure);
        if best != start {
            let held = items[start];
            items[start] = items[best];
            items[best] = held;
        }
    }
    items
}

let words = ["banana", "fig", "cherry", "kiwi", "apple"];
print(selection_sort(words, |word| word.len()));
print(selection_sort(words, |word| word));
print(selection_sort(words, |word| word[-1]));
print(selection_sort([3, -9, 4, -1], |number| number.abs()));
print(selection_sort([3, -9, 4, -1], |number| -number));
print(selection_sort([[2, 1], [0, 5], [9, -9]], |pair| pair[0] + pair[1]));
print(words);
let limit = 5;
print(selection_sort([1, 9, 4, 6], |number| (number - limit).abs()));
