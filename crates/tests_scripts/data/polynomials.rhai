// polynomials as arrays of factors, the lowest power first
fn trimmed(factors) {
    while factors.len() > 1 && factors[-1] == 0 { factors.pop(); }
    factors
}

fn sum(left, right) {
    let result = [];
    for at in 0..max(left.len(), right.len()) { result.push((left.get(at) ?? 0) + (right.get(at) ?? 0)); }
    trimmed(result)
}

fn product(left, right) {
    let result = [];
    result.pad(left.len() + right.len() - 1, 0);
    for (one, row) in left { for (two, column) in right { result[row + column] += one * two; } }
    trimmed(result)
}

fn value_at(factors, x) { factors.reduce_rev(|value, factor| value * x + factor, 0) }

fn derived(factors) {
    let result = factors.map(|factor, power| factor * power);
    if result.len() > 1 { result.shift(); }
    result
}

fn written(factors) {
    let text = "";
    let power = factors.len() - 1;
    while power >= 0 {
        let factor = factors[power];
        if factor != 0 || factors.len() == 1 {
            let sign = switch text { "" => if factor < 0 { "-" } else { "" }, _ => if factor < 0 { " - " } else { " + " } };
            let size = factor.abs();
            let name = switch power { 0 => "", 1 => "x", _ => `x^${power}` };
            text += sign + (if size == 1 && power > 0 { "" } else { size.to_string() }) + name;
        }
        power -= 1;
    }
    text
}

let first = [-1, 0, 3];
let second = [2, 1];
print(written(first));
print(written(second));
print(written(sum(first, second)));
print(written(product(first, second)));
print(written(sum(first, [1, 5, -3])));
print(written(derived(product(first, second))));
print(written(derived(derived(derived([7, 7, 7])))));
print([-2, 0, 1, 10].map(|x| value_at(first, x)));
let power = [1];
for round in 0..5 { power = product(power, [1, -1]); }
print(written(power));
print((-10..=10).contains(3));
let roots = [];
for x in -10..=10 { if value_at([-6, -5, 2, 1], x) == 0 { roots.push(x); } }
print(roots);
