// perfect, amicable, happy and other numbers
fn divisors(number) {
    let found = [];
    let other = [];
    let divisor = 1;
    while divisor * divisor <= number {
        if number % divisor == 0 {
            found.push(divisor);
            if divisor * divisor != number { other.insert(0, number / divisor); }
        }
        divisor += 1;
    }
    found + other
}

fn aliquot(number) { divisors(number).reduce(|sum, divisor| sum + divisor, 0) - number }

fn sum_of(number, power) {
    let sum = 0;
    while number > 0 {
        sum += (number % 10) ** power;
        number /= 10;
    }
    sum
}

fn is_happy(number) {
    let seen = [];
    while number != 1 && number !in seen {
        seen.push(number);
        number = sum_of(number, 2);
    }
    number == 1
}

print(divisors(36));
let perfect = [];
let abundant = [];
for number in 2..=500 {
    switch aliquot(number) - number {
        0 => perfect.push(number),
        1..1000 if abundant.len() < 8 => abundant.push(number)
    }
}
print(perfect);
print(abundant);
print(aliquot(8128) == 8128);
print([220, 284, 1184].map(|number| aliquot(number)));
let happy = [];
for number in 1..50 { if is_happy(number) { happy.push(number); } }
print(happy);
let narcissistic = [];
for number in 100..1000 { if sum_of(number, 3) == number { narcissistic.push(number); } }
print(narcissistic);
let chain = [12496];
while chain.len() < 6 { chain.push(aliquot(chain[-1])); }
print(chain);
