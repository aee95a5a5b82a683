// walks a graph in depth: order, parts that hang together, rounds
let graph = #{
    a: ["b", "c"], b: ["d"], c: ["d", "e"], d: ["f"], e: ["f"], f: [],
    x: ["y"], y: ["z"], z: ["x"]
};

fn visit(graph, name) {
    if name in this { return; }
    this.push(name);
    for next in graph[name] { this.visit(graph, next); }
}

fn visited_from(graph, name) {
    let order = [];
    order.visit(graph, name);
    order
}

fn has_round(graph, name, path) {
    if name in path { return true; }
    graph[name].some(|next| has_round(graph, next, path + [name]))
}

fn paths(graph, from, target) {
    if from == target { return [[target]]; }
    let all = [];
    for next in graph[from] {
        for path in paths(graph, next, target) { all.push([from] + path); }
    }
    all
}

print(visited_from(graph, "a"));
print(visited_from(graph, "c"));
print(visited_from(graph, "y"));
for name in ["a", "f", "x"] { print(`${name}: ${has_round(graph, name, [])}`); }
for path in paths(graph, "a", "f") { print(path); }

let backwards = #{};
for name in graph.keys() {
    for next in graph[name] {
        if next !in backwards { backwards[next] = []; }
        backwards[next].push(name);
    }
}
print(backwards);
print(graph.keys().filter(|name| name !in backwards));
