// factorials that no int holds, by arrays of digits, the lowest first
fn multiplied(digits, factor) {
    let product = [];
    let carry = 0;
    for digit in digits {
        let value = digit * factor + carry;
        product.push(value % 10);
        carry = value / 10;
    }
    while carry > 0 {
        product.push(carry % 10);
        carry /= 10;
    }
    product
}

fn added(left, right) {
    let sum = [];
    let carry = 0;
    for at in 0..max(left.len(), right.len()) {
        let value = (left.get(at) ?? 0) + (right.get(at) ?? 0) + carry;
        sum.push(value % 10);
        carry = value / 10;
    }
    if carry > 0 { sum.push(carry); }
    sum
}

fn written(digits) {
    let text = "";
    for digit in digits { text = digit + text; }
    text
}

fn factorial(n) {
    let digits = [1];
    for factor in 2..=n { digits = multiplied(digits, factor); }
    digits
}

for n in [1, 5, 20, 21, 25, 30] { print(`${n}! = ${written(factorial(n))}`); }
print(factorial(30).len());
print(written(added(factorial(30), factorial(29))));
let first = [1];
let second = [1];
for step in 3..=100 {
    let next = added(first, second);
    first = second;
    second = next;
}
print(written(second));
