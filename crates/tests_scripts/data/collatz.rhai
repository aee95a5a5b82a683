// the rounds of 3n + 1 until 1
fn chain(number) {
    let numbers = [number];
    while number != 1 {
        number = if number.is_even { number / 2 } else { 3 * number + 1 };
        numbers.push(number);
    }
    numbers
}

print(chain(6));
print(chain(1));
for start in [7, 9, 27, 97] {
    let numbers = chain(start);
    let highest = numbers.reduce(|most, number| max(most, number), 0);
    print(`${start}: ${numbers.len() - 1} steps, up to ${highest}`);
}

let best = 0;
let longest = 0;
let known = #{ "1": 0 };
for start in 2..200 {
    let number = start;
    let steps = 0;
    while known[number.to_string()] == () {
        number = if number % 2 == 0 { number / 2 } else { number * 3 + 1 };
        steps += 1;
    }
    steps += known[number.to_string()];
    known[start.to_string()] = steps;
    if steps > longest {
        longest = steps;
        best = start;
    }
}
print(`below 200 the longest is that of ${best}: ${longest}`);
print(known.len());
