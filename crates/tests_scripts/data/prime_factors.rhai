// prime factors, and what follows from them
fn factors(number) {
    let found = [];
    let divisor = 2;
    while divisor * divisor <= number {
        while number % divisor == 0 {
            found.push(divisor);
            number /= divisor;
        }
        divisor += 1;
    }
    if number > 1 { found.push(number); }
    found
}

fn powers(number) {
    let text = "";
    let all = factors(number);
    let at = 0;
    while at < all.len() {
        let prime = all[at];
        let count = 0;
        while at < all.len() && all[at] == prime { count += 1; at += 1; }
        if text != "" { text += " * "; }
        text += if count == 1 { `${prime}` } else { `${prime}^${count}` };
    }
    text
}

fn count_divisors(number) {
    let counts = #{};
    for prime in factors(number) {
        let key = prime.to_string();
        counts[key] = (counts[key] ?? 0) + 1;
    }
    counts.values().reduce(|product, count| product * (count + 1), 1)
}

for number in [12, 97, 360, 1001, 65536, 99999] { print(`${number} = ${powers(number)}`); }
print(factors(1));
print(factors(600851475));
print([1, 12, 97, 360, 5040].map(|number| count_divisors(number)));
let primes = [];
for number in 2..50 { if factors(number) == [number] { primes.push(number); } }
print(primes);
let twins = [];
for (prime, at) in primes { if at > 0 && prime - primes[at - 1] == 2 { twins.push([primes[at - 1], prime]); } }
print(twins);
