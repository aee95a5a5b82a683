// what to pack so that it is worth most: a table, and a search beside it
fn pack(items, limit) {
    let table = [[]];
    table[0].pad(limit + 1, 0);
    for item in items {
        let before = table[-1];
        let row = [];
        for room in 0..=limit {
            let best = before[room];
            if item.weight <= room { best = max(best, before[room - item.weight] + item.worth); }
            row.push(best);
        }
        table.push(row);
    }
    let chosen = [];
    let room = limit;
    let at = items.len();
    while at > 0 {
        if table[at][room] != table[at - 1][room] {
            chosen.insert(0, items[at - 1].name);
            room -= items[at - 1].weight;
        }
        at -= 1;
    }
    #{ worth: table[-1][limit], chosen: chosen, left: room }
}

fn search(items, limit) {
    if items.is_empty() { return 0; }
    let item = items.pop();
    let best = search(items, limit);
    if item.weight <= limit { max(best, item.worth + search(items, limit - item.weight)) } else { best }
}

let items = [
    #{ name: "map", weight: 9, worth: 150 }, #{ name: "compass", weight: 13, worth: 35 },
    #{ name: "water", weight: 15, worth: 200 }, #{ name: "sandwich", weight: 5, worth: 160 },
    #{ name: "glucose", weight: 15, worth: 60 }, #{ name: "tin", weight: 6, worth: 45 }
];
for limit in [0, 5, 14, 29, 40] {
    let packed = pack(items, limit);
    print(`${limit}: ${packed.worth} by ${packed.chosen}, ${packed.left} left`);
    if packed.worth != search(items, limit) { print("the search finds another"); }
}
print(items.len());
