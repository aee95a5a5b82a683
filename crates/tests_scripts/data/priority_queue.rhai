// a priority queue as a binary heap in an array
fn raise(at) {
    while at > 0 {
        let parent = (at - 1) / 2;
        if this[parent].rank <= this[at].rank { break; }
        let held = this[parent];
        this[parent] = this[at];
        this[at] = held;
        at = parent;
    }
}

fn sink(at) {
    loop {
        let least = at;
        for child in [2 * at + 1, 2 * at + 2] {
            if child < this.len() && this[child].rank < this[least].rank { least = child; }
        }
        if least == at { break; }
        let held = this[least];
        this[least] = this[at];
        this[at] = held;
        at = least;
    }
}

fn enqueue(name, rank) {
    this.push(#{ name: name, rank: rank });
    this.raise(this.len() - 1);
}

fn dequeue() {
    if this.is_empty() { return (); }
    let first = this[0];
    let last = this.pop();
    if !this.is_empty() {
        this[0] = last;
        this.sink(0);
    }
    first.name
}

let tasks = [];
tasks.enqueue("write", 5);
tasks.enqueue("test", 3);
tasks.enqueue("sleep", 9);
tasks.enqueue("fix", 1);
tasks.enqueue("eat", 4);
print(tasks[0]);
print(tasks.dequeue());
print(tasks.dequeue());
tasks.enqueue("panic", 0);
tasks.enqueue("party", 10);
let order = [];
while !tasks.is_empty() { order.push(tasks.dequeue()); }
print(order);
print(tasks.dequeue() == ());
