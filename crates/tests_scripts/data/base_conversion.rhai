// ints written and read in any base from 2 to 36
const DIGITS = "0123456789abcdefghijklmnopqrstuvwxyz";

let write_in = |number, base| {
    if number == 0 { return "0"; }
    let text = "";
    let rest = number.abs();
    while rest > 0 {
        text = DIGITS[rest % base] + text;
        rest /= base;
    }
    if number < 0 { "-" + text } else { text }
};

let read_in = |text, base| {
    let value = 0;
    for letter in text {
        if letter == '-' { continue; }
        let digit = DIGITS.index_of(letter);
        if digit < 0 || digit >= base { throw `'${letter}' is no digit in base ${base}`; }
        value = value * base + digit;
    }
    if text.starts_with("-") { -value } else { value }
};

for base in [2, 3, 8, 16, 36] {
    let text = write_in.call(2026, base);
    print(`2026 in base ${base} is ${text}, again ${read_in.call(text, base)}`);
}
print(write_in.call(-255, 16) + " " + write_in.call(0, 7));
print(read_in.call("-zz", 36));
print(write_in.call(255, 2) == (255).to_binary());
print(write_in.call(493, 8) == (493).to_octal());
print(read_in.call("beef", 16) == "beef".parse_int(16));
try { read_in.call("129", 8) } catch (problem) { print(problem); }

let balanced = |number| {
    let text = "";
    while number != 0 {
        let rest = number % 3;
        text = switch rest { 0 => '0', 1 => '+', _ => '-' } + text;
        number = (number + 1) / 3;
    }
    text
};
print([1, 2, 3, 5, 13, 14].map(balanced));
