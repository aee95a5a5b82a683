// what is done with the bits of ints
fn count_bits(number) {
    let count = 0;
    while number != 0 {
        number &= number - 1;
        count += 1;
    }
    count
}

fn is_power_of_two(number) { number > 0 && (number & (number - 1)) == 0 }
fn lowest_bit(number) { number & -number }
fn parity(number) { if count_bits(number).is_odd { 1 } else { 0 } }

fn reversed(number, width) {
    let turned = 0;
    for at in 0..width {
        turned = (turned << 1) | (number & 1);
        number >>= 1;
    }
    turned
}

fn gray(number) { number ^ (number >> 1) }

print([0, 1, 7, 255, 256, 1023].map(|number| count_bits(number)));
print((-1).bits.filter(|bit| bit).len());
print([0, 1, 2, 3, 64, 96].filter(|number| is_power_of_two(number)));
print([12, 80, 7].map(|number| lowest_bit(number)));
print(reversed(0b1101, 4).to_binary() + " " + reversed(1, 8));
let codes = [];
for number in 0..8 { codes.push(gray(number).to_binary()); }
print(codes);
let left = 25;
let right = 71;
left ^= right;
right ^= left;
left ^= right;
print(`${left} ${right}`);
let flags = 0;
for at in [0, 3, 5] { flags |= 1 << at; }
print(flags);
flags[3] = false;
flags[6] = true;
print(flags.to_binary());
print([4, 9, 7, 9, 4].reduce(|all, number| all ^ number, 0));
print(flags[4..8]);
print([1, 2, 3].map(|number| parity(number)));
print(-16 >> 2);
