// shortest distances in a small graph with weights
let roads = [
    ["Aston", "Birch", 7], ["Aston", "Coven", 9], ["Aston", "Frome", 14],
    ["Birch", "Coven", 10], ["Birch", "Derby", 15], ["Coven", "Derby", 11],
    ["Coven", "Frome", 2], ["Derby", "Exton", 6], ["Exton", "Frome", 9], ["Gorse", "Hythe", 1]
];

let graph = #{};
for road in roads {
    for way in [[road[0], road[1]], [road[1], road[0]]] {
        if way[0] !in graph { graph[way[0]] = #{}; }
        graph[way[0]][way[1]] = road[2];
    }
}

fn distances(graph, start) {
    let best = #{};
    best[start] = 0;
    let before = #{};
    let done = [];
    loop {
        let nearest = ();
        for name in best.keys() {
            if name !in done && (nearest == () || best[name] < best[nearest]) { nearest = name; }
        }
        if nearest == () { break #{ best: best, before: before }; }
        done.push(nearest);
        for next in graph[nearest].keys() {
            let length = best[nearest] + graph[nearest][next];
            if best[next] == () || length < best[next] {
                best[next] = length;
                before[next] = nearest;
            }
        }
    }
}

fn way_to(before, target) {
    let way = target;
    while before[target] != () {
        target = before[target];
        way = target + " > " + way;
    }
    way
}

print(graph.Coven);
let found = distances(graph, "Aston");
print(found.best);
for name in found.best.keys() { print(`${found.best[name]}: ${way_to(found.before, name)}`); }
print("Gorse" in found.best);
print(distances(graph, "Gorse").best);
