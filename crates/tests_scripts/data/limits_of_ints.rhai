// what overflows, or can't be divided, is an error; nothing wraps
const HIGHEST = 9223372036854775807;
const LOWEST = -9223372036854775807 - 1;
print(`${LOWEST} to ${HIGHEST}`);
fn tried(action) {
    try { return action.call(); } catch { return "refused"; }
}
print(tried(|| HIGHEST + 1));
print(tried(|| LOWEST - 1));
print(tried(|| HIGHEST * 2));
print(tried(|| -LOWEST));
print(tried(|| LOWEST.abs()));
print(tried(|| LOWEST / -1));
print(tried(|| 10 ** 19));
print(tried(|| 10 ** 18));
print(tried(|| 2 ** -1));
print(tried(|| 7 / 0) + " " + tried(|| 7 % 0));
print(tried(|| "9223372036854775808".parse_int()));
print(tried(|| "-9223372036854775808".parse_int()) == LOWEST);
print([7 / 2, -7 / 2, 7 / -2, -7 / -2]);
print([7 % 3, -7 % 3, 7 % -3, -7 % -3]);
print([HIGHEST.to_hex(), (255).to_octal(), (6).to_binary()]);
print(1_000_000 + 0xff + 0o17 + 0b1010);
print([min(3, -3), max(3, -3), (-9).abs(), (-9).sign(), (0).sign()]);
let count = 0;
try {
    let product = 1;
    loop { count += 1; product *= count; }
} catch (problem) {
    print(`${count}! is too large, line ${problem.line}`);
}
