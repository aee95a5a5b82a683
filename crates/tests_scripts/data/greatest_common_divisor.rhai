// divisors and multiples in common, and fractions by them
fn gcd(left, right) {
    while right != 0 {
        let rest = left % right;
        left = right;
        right = rest;
    }
    left.abs()
}

fn lcm(left, right) { if left == 0 || right == 0 { 0 } else { (left / gcd(left, right) * right).abs() } }

fn extended(left, right) {
    if right == 0 { return [left, 1, 0]; }
    let found = extended(right, left % right);
    [found[0], found[2], found[1] - left / right * found[2]]
}

fn fraction(top, bottom) {
    if bottom == 0 { throw "a fraction over zero"; }
    let common = gcd(top, bottom) * bottom.sign();
    #{ top: top / common, bottom: bottom / common }
}

fn plus(other) { fraction(this.top * other.bottom + other.top * this.bottom, this.bottom * other.bottom) }
fn times(other) { fraction(this.top * other.top, this.bottom * other.bottom) }
fn show() { if this.bottom == 1 { `${this.top}` } else { `${this.top}/${this.bottom}` } }

print(gcd(48, 36));
print(gcd(-17, 5));
print(lcm(4, 6));
print([2, 3, 4, 5, 6, 7, 8, 9, 10].reduce(|all, n| lcm(all, n), 1));
print(extended(240, 46));
print(fraction(6, -8).show());
print(fraction(1, 2).plus(fraction(1, 3)).show());
print(fraction(2, 3).times(fraction(9, 4)).show());
let sum = fraction(0, 1);
for n in 1..=6 { sum = sum.plus(fraction(1, n)); }
print(sum.show());
print(fraction(10, 5).show());
try { fraction(1, 0) } catch (problem) { print(problem); }
