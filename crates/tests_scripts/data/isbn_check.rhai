// book numbers of ten and thirteen digits
fn cleaned(text) {
    text.remove('-');
    text.remove(" ");
    text
}

fn value_of(letter) { if letter == 'X' { 10 } else { "0123456789".index_of(letter) } }

fn is_isbn_10(text) {
    let code = cleaned(text);
    if code.len() != 10 { return false; }
    let sum = 0;
    for (letter, at) in code {
        let value = value_of(letter);
        if value < 0 || (value == 10 && at != 9) { return false; }
        sum += value * (10 - at);
    }
    sum % 11 == 0
}

fn last_of_13(digits) {
    let sum = 0;
    for (letter, at) in digits { sum += value_of(letter) * if at % 2 == 0 { 1 } else { 3 }; }
    (10 - sum % 10) % 10
}

fn is_isbn_13(text) {
    let code = cleaned(text);
    code.len() == 13 && value_of(code[-1]) == last_of_13(code[0..12])
}

fn to_13(text) {
    if !is_isbn_10(text) { throw #{ wrong: text }; }
    let body = "978" + cleaned(text).sub_string(0, 9);
    body + last_of_13(body)
}

for text in ["0-306-40615-2", "0-306-40615-3", "0-8044-2957-X", "3-16-148410-0", "X-306-40615-2"] { print(`${text} ${is_isbn_10(text)}`); }
print(is_isbn_13("978-0-306-40615-7"));
print(is_isbn_13("978-3-16-148410-1"));
print(to_13("0-306-40615-2"));
print(to_13("080442957X"));
try { to_13("123") } catch (problem) { print(problem); }
