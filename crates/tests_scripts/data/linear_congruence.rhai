// random numbers by a linear congruence, for dice, shuffles and choices
fn new_random(seed) {
    #{
        seed: seed,
        step: || {
            this.seed = (this.seed * 1103515245 + 12345) % 2147483648;
            this.seed / 65536
        },
        below: |limit| this.step() % limit,
        pick: |items| items[this.below(items.len())],
        shuffle: |items| {
            let at = items.len() - 1;
            while at > 0 {
                let other = this.below(at + 1);
                let held = items[at];
                items[at] = items[other];
                items[other] = held;
                at -= 1;
            }
            items
        }
    }
}

let random = new_random(42);
print([random.step(), random.step(), random.step()]);
let throws = [];
for round in 0..12 { throws.push(random.below(6) + 1); }
print(throws);
print(random.pick(["red", "green", "blue"]));
print(random.shuffle([1, 2, 3, 4, 5, 6, 7, 8]));
let again = new_random(42);
print(again.step() == new_random(42).step());
let counts = [0, 0, 0, 0];
for round in 0..400 { counts[again.below(4)] += 1; }
print(counts);
print(counts.reduce(|sum, count| sum + count, 0));
print(random.seed == again.seed);
