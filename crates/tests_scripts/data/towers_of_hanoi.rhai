// moves the towers of Hanoi, with the pegs as arrays of a map
fn hanoi(count, from, over, target) {
    if count == 0 { return; }
    this.hanoi(count - 1, from, target, over);
    let disk = this[from].pop();
    let below = this[target].get(-1);
    if below != () && below < disk { throw `disk ${disk} on ${below}`; }
    this[target].push(disk);
    this.moves += 1;
    if this.verbose { print(`${disk}: ${from} to ${target}`); }
    this.hanoi(count - 1, over, from, target);
}

fn new_towers(count, verbose) {
    let disks = [];
    for disk in 0..count { disks.push(count - disk); }
    #{ left: disks, middle: [], right: [], moves: 0, verbose: verbose }
}

let towers = new_towers(3, true);
towers.hanoi(3, "left", "middle", "right");
print(towers);
for count in [1, 5, 8] {
    let towers = new_towers(count, false);
    towers.hanoi(count, "left", "middle", "right");
    print(`${count}: ${towers.moves} moves, right ${towers.right}`);
}
let wrong = #{ left: [3], middle: [1], right: [], moves: 0, verbose: false };
try { wrong.hanoi(1, "left", "right", "middle"); } catch (problem) { print(problem); }
