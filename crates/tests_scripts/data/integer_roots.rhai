// roots, powers and logarithms of ints
fn root(number) {
    if number < 0 { throw "a negative number has no root"; }
    let guess = number;
    let next = (guess + 1) / 2;
    while next < guess {
        guess = next;
        next = (guess + number / guess) / 2;
    }
    guess
}

fn nth_root(number, n) {
    let low = 0;
    let high = number;
    while low < high {
        let middle = (low + high + 1) / 2;
        let fits = { try { middle ** n <= number } catch { false } };
        if fits { low = middle; } else { high = middle - 1; }
    }
    low
}

fn power_modulo(base, exponent, modulus) {
    let result = 1;
    base %= modulus;
    while exponent > 0 {
        if exponent.is_odd { result = result * base % modulus; }
        base = base * base % modulus;
        exponent /= 2;
    }
    result
}

fn logarithm(number, base) { if number < base { 0 } else { 1 + logarithm(number / base, base) } }

print([0, 1, 2, 15, 16, 17, 1000000, 999999].map(|number| root(number)));
print(root(4611686014132420608));
print(nth_root(1000, 3));
print(nth_root(999, 3));
print(nth_root(1 << 60, 5));
print(power_modulo(2, 100, 1_000_007));
print(power_modulo(3, 200, 13));
print([1, 2, 1023, 1024].map(|number| logarithm(number, 2)));
let fermat = [];
for number in 3..40 { if number.is_odd && power_modulo(2, number - 1, number) == 1 { fermat.push(number); } }
print(fermat);
let triples = [];
for left in 1..20 {
    for right in left..20 {
        let sum = left * left + right * right;
        if root(sum) ** 2 == sum { triples.push([left, right, root(sum)]); }
    }
}
print(triples);
try { root(-4) } catch (problem) { print(problem); }
