// insertion sort, with each step shown
fn insertion_sort() {
    let moves = 0;
    for end in 1..this.len() {
        let item = this[end];
        let at = end;
        while at > 0 && this[at - 1] > item {
            this[at] = this[at - 1];
            at -= 1;
            moves += 1;
        }
        this[at] = item;
        print(this);
    }
    moves
}

let numbers = [4, 3, 5, 1, 2];
print(`${numbers.insertion_sort()} moves`);
let sorted = [1, 2, 3];
print(`${sorted.insertion_sort()} moves`);

fn shell_sort() {
    let gap = this.len() / 2;
    while gap > 0 {
        for end in gap..this.len() {
            let at = end;
            let item = this[at];
            while at >= gap && this[at - gap] > item {
                this[at] = this[at - gap];
                at -= gap;
            }
            this[at] = item;
        }
        print(`${gap}: ${this}`);
        gap /= 2;
    }
}
let more = [9, 8, 7, 6, 5, 4, 3, 2];
more.shell_sort();
