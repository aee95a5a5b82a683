// palindromes: of letters, of numbers, and the longest within a text
fn letters_only(text) {
    let kept = "";
    for letter in text.to_lower() {
        if letter >= 'a' && letter <= 'z' { kept += letter; }
    }
    kept
}

fn reversed(text) {
    let turned = "";
    for letter in text { turned = letter + turned; }
    turned
}

fn is_palindrome(text) {
    let letters = letters_only(text);
    letters == reversed(letters)
}

fn longest_within(text) {
    let best = "";
    for middle in 0..text.len() {
        for width in 0..2 {
            let left = middle;
            let right = middle + width;
            while left >= 0 && right < text.len() && text[left] == text[right] {
                left -= 1;
                right += 1;
            }
            if right - left - 1 > best.len() { best = text[left + 1..right]; }
        }
    }
    best
}

fn mirrored(number) {
    let turned = 0;
    while number > 0 {
        turned = turned * 10 + number % 10;
        number /= 10;
    }
    turned
}

for text in ["A man, a plan, a canal: Panama", "Never odd or even", "Almost", "", "Was it a car or a cat I saw?"] {
    print(`${is_palindrome(text)}: ${text}`);
}
for text in ["babad", "forgeeksskeegfor", "abc", "aaaa"] { print(longest_within(text)); }
let best = 0;
for left in 90..100 { for right in 90..100 { let both = left * right; if both == mirrored(both) { best = max(best, both); } } }
print(best);
let number = 87;
let steps = 0;
do { number += mirrored(number); steps += 1; } until number == mirrored(number);
print(`${number} after ${steps}`);
