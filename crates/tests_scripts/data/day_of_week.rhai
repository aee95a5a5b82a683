// days of the week and leap years, by sums
fn is_leap(year) { year % 4 == 0 && (year % 100 != 0 || year % 400 == 0) }

fn weekday(year, month, day) {
    // Zeller: March is the third month, January the thirteenth of the year before
    if month < 3 {
        month += 12;
        year -= 1;
    }
    let century = year / 100;
    let rest = year % 100;
    (day + 13 * (month + 1) / 5 + rest + rest / 4 + century / 4 + 5 * century) % 7
}

fn days_of(month, year) {
    switch month {
        2 => if is_leap(year) { 29 } else { 28 },
        4 | 6 | 9 | 11 => 30,
        1..=12 => 31,
        _ => throw `no month ${month}`
    }
}

const NAMES = ["Saturday", "Sunday", "Monday", "Tuesday", "Wednesday", "Thursday", "Friday"];
for date in [[2000, 1, 1], [1969, 7, 20], [2024, 2, 29], [1789, 7, 14], [2038, 1, 19]] {
    print(`${date[0]}-${date[1]}-${date[2]} ${NAMES[weekday(date[0], date[1], date[2])]}`);
}
print([1900, 1996, 2000, 2023, 2024, 2100].filter(|year| is_leap(year)));
print((1..=12).is_inclusive);
let lengths = [];
for month in 1..=12 { lengths.push(days_of(month, 2023)); }
print(lengths);
print(lengths.reduce(|sum, days| sum + days, 0));
let unlucky = [];
for month in 1..=12 {
    if weekday(2026, month, 13) == 6 { unlucky.push(month); }
}
print(unlucky);
try { days_of(13, 2000) } catch (problem) { print(problem); }
