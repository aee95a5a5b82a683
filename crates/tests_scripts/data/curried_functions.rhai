// first arguments given beforehand
fn volume(length, width, height) { length * width * height }
let base = Fn("volume").curry(2);
let slab = base.curry(3);
print(base.call(3, 4));
print(slab.call(5));
print(slab.curry(6).call());
print(Fn("volume").curry(1).curry(1).curry(1).call());
print(Fn("volume").curry(2, 5).call(10));
print([1, 2, 3].map(slab));

let join = |separator, left, right| `${left}${separator}${right}`;
let dashed = join.curry("-");
print(dashed.call("a", "b"));
print(["x", "y", "z"].reduce(dashed));
print(["x", "y", "z"].reduce(dashed, "start"));
print(call(join.curry("+").curry(1), 2));

let offset = 100;
let shifted = |times, value| value * times + offset;
let tenfold = shifted.curry(10);
print(tenfold.call(5));
offset = 0;
print(tenfold.call(5));

fn scaled(factor) { this * factor }
let triple = Fn("scaled").curry(3);
let number = 14;
print(number.call(triple));
let list = [1, 2];
let append = |first, second| { this.push(first); this.push(second); this.len() };
print(list.call(append.curry("a"), "b"));
print(list);
try { slab.call(1, 2); } catch { print("too many"); }
print(slab.name + " " + slab.is_anonymous + " " + dashed.is_anonymous);
print([5, 3, 9].filter((|limit, value| value > limit).curry(4)));
