// units of length, mass and time as ratios of ints
let units = #{
    mm: ["length", 1, 1000], cm: ["length", 1, 100], m: ["length", 1, 1], km: ["length", 1000, 1],
    inch: ["length", 254, 10000], foot: ["length", 3048, 10000], mile: ["length", 1609344, 1000],
    g: ["mass", 1, 1], kg: ["mass", 1000, 1], lb: ["mass", 45359237, 100000],
    s: ["time", 1, 1], min: ["time", 60, 1], h: ["time", 3600, 1], day: ["time", 86400, 1]
};

fn convert(units, amount, from, target) {
    let first = units[from] ?? fail(`unknown unit ${from}`);
    let last = units[target] ?? fail(`unknown unit ${target}`);
    if first[0] != last[0] { fail(`${from} is ${first[0]}, ${target} is ${last[0]}`); }
    // in thousandths of the target
    amount * 1000 * first[1] * last[2] / (first[2] * last[1])
}

fn fail(text) { throw text; }

fn written(thousandths) {
    let rest = (thousandths % 1000).to_string();
    while rest.len() < 3 { rest = "0" + rest; }
    `${thousandths / 1000}.${rest}`
}

let questions = ["5 km m", "12 inch cm", "6 foot m", "26 mile km", "150 lb kg", "1000 g lb", "90 min h", "1 day s", "3 kg h", "2 yard m", "2 m elle"];
for question in questions {
    let words = question.split(' ');
    try {
        let result = convert(units, words[0].parse_int(), words[1], words[2]);
        print(`${words[0]} ${words[1]} = ${written(result)} ${words[2]}`);
    } catch (problem) {
        print("no answer: " + problem);
    }
}
let lengths = units.filter(|name, unit| unit[0] == "length").keys();
lengths.sort(|left, right| units[left][1] * units[right][2] - units[right][1] * units[left][2]);
print(lengths);
