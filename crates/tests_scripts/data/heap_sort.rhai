// heapsort in place, with the heap shown level by level
fn sink(at, end) {
    while 2 * at + 1 < end {
        let child = 2 * at + 1;
        if child + 1 < end && this[child + 1] > this[child] { child += 1; }
        if this[at] >= this[child] { return; }
        let held = this[at];
        this[at] = this[child];
        this[child] = held;
        at = child;
    }
}

fn make_heap() {
    let at = this.len() / 2 - 1;
    while at >= 0 {
        this.sink(at, this.len());
        at -= 1;
    }
}

fn heap_sort() {
    this.make_heap();
    let end = this.len();
    while end > 1 {
        end -= 1;
        let held = this[0];
        this[0] = this[end];
        this[end] = held;
        this.sink(0, end);
    }
}

let numbers = [12, 3, 17, 8, 34, 25, 1];
let heap = numbers;
heap.make_heap();
let first = 0;
let width = 1;
while first < heap.len() {
    print(heap.extract(first, width));
    first += width;
    width *= 2;
}
numbers.heap_sort();
print(numbers);
let words = "the heap keeps the largest on top".split();
words.heap_sort();
print(words);
let empty = [];
empty.heap_sort();
print(empty);
