// the last digit of card numbers, by Luhn
fn digits_of(text) {
    text.remove(' ');
    text.to_chars().map(|letter| {
        if letter < '0' || letter > '9' { throw `not a digit: ${letter}`; }
        letter.to_int() - 48
    })
}

fn luhn_sum(digits) {
    digits.reverse();
    let sum = 0;
    for (digit, at) in digits {
        if at.is_odd {
            digit *= 2;
            if digit > 9 { digit -= 9; }
        }
        sum += digit;
    }
    sum
}

fn is_valid(text) {
    let digits = digits_of(text);
    digits.len() > 1 && luhn_sum(digits) % 10 == 0
}

fn check_digit(text) { (10 - luhn_sum(digits_of(text + "0")) % 10) % 10 }

for text in ["4539 1488 0343 6467", "8273 1232 7352 0569", "059", "0", "79927398713"] { print(`${text} ${is_valid(text)}`); }
print(check_digit("7992739871"));
print(check_digit("1"));
let number = "123456781234567";
print(number + check_digit(number));
print(is_valid(number + check_digit(number)));
try { is_valid("4539x") } catch (problem) { print(problem); }
let changed = 0;
for digit in 0..10 { if is_valid(`7992739${digit}713`) { changed += 1; } }
print(changed);
