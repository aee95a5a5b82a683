// functions put behind each other, with their first arguments given
fn scale(factor, value) { value * factor }
fn clamp(low, high, value) { max(low, min(high, value)) }
fn power(exponent, value) {
    let result = 1;
    for round in 0..exponent { result *= value; }
    result
}

fn run(steps, value) { steps.reduce(|current, step| step.call(current), value) }

fn compose(first, second) { |value| second.call(first.call(value)) }

let steps = [
    Fn("scale").curry(3),
    |value| value - 4,
    Fn("clamp").curry(0).curry(50),
    Fn("power").curry(2)
];
print([1, 2, 5, 100].map(|value| run(steps, value)));

let shorter = steps;
shorter.pop();
print([1, 2, 5, 100].map(|value| run(shorter, value)));

let double_then_square = compose(Fn("scale").curry(2), Fn("power").curry(2));
print(double_then_square.call(5));
let again = compose(double_then_square, double_then_square);
print(again.call(1));

let trace = [];
let traced = |name, step, value| {
    let result = step.call(value);
    trace.push(`${name}: ${value} -> ${result}`);
    result
};
let watched = [traced.curry("half", |value| value / 2), traced.curry("next", |value| value + 1)];
print(run(watched, 9));
for line in trace { print(line); }
print(run([], "unchanged"));
print(Fn("scale").curry(4).name);
