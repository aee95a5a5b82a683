// maps: joined, filled, walked, changed and compared
let base = #{ host: "local", port: 80, options: #{ verbose: false } };
let extra = #{ port: 8080, user: "ann" };
print(base + extra);
print(base.len() + extra.len());
let merged = base;
merged.mixin(extra);
print(merged.port);
let filled = extra;
filled.fill_with(base);
print(filled);
merged += #{ port: 1, "with space": () };
print(merged.keys());
print(merged["with space"] ?? "nothing there");
print(merged.remove("port"));
print(merged.remove("port") ?? "gone already");
merged.options.verbose = true;
merged.options.level = 3;
print(`${base.options} ${merged.options}`);

let deep = |left, right| {
    for key in right.keys() {
        left[key] = if type_of(left[key]) == "map" && type_of(right[key]) == "map" { left[key] + right[key] } else { right[key] };
    }
    left
};
print(deep.call(base, #{ options: #{ level: 1 }, host: "far" }));
print(#{ a: 1, b: [2] } == #{ b: [2], a: 1 });
print(#{ a: 1 } == #{ a: 1, b: () });
let counts = #{};
for key in ["b", "a", "b"] { counts[key] = (counts[key] ?? 0) + 1; }
print(counts);
print(`${counts.values()} ${counts.contains("a")} ${counts.contains("z")}`);
counts.set("z", 26);
counts.clear();
print(`${counts} ${counts.is_empty()}`);
let swapped = #{};
for (key, at) in #{ x: "p", y: "q" }.keys() { swapped[`k${at}`] = key; }
print(swapped.to_json());
let nested = #{ a: #{ b: #{ c: [10, #{ d: "end" }] } } };
print(nested.a.b.c[1].d + nested["a"]["b"].c[0]);
