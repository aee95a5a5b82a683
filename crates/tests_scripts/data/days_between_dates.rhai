// days between dates, by counting days from a first one
fn day_number(date) {
    let parts = date.split('-').map(|part| part.parse_int());
    let year = parts[0];
    let month = parts[1];
    if month <= 2 {
        year -= 1;
        month += 12;
    }
    365 * year + year / 4 - year / 100 + year / 400 + (153 * (month - 3) + 2) / 5 + parts[2]
}

fn two_digits(number) { if number < 10 { `0${number}` } else { number.to_string() } }

fn date_after(date, days) {
    let target = day_number(date) + days;
    let parts = date.split('-').map(|part| part.parse_int());
    let year = parts[0] + days / 366;
    while day_number(`${year + 1}-01-01`) <= target { year += 1; }
    let month = 1;
    while month < 12 && day_number(`${year}-${month + 1}-01`) <= target { month += 1; }
    let day = target - day_number(`${year}-${month}-01`) + 1;
    `${year}-${two_digits(month)}-${two_digits(day)}`
}

let pairs = [
    ["2024-01-01", "2024-12-31"], ["2023-02-28", "2023-03-01"], ["2024-02-28", "2024-03-01"],
    ["1999-12-31", "2000-01-01"], ["1969-07-20", "2024-07-20"], ["2024-05-10", "2024-05-01"]
];
for pair in pairs {
    print(`${pair[0]} to ${pair[1]}: ${day_number(pair[1]) - day_number(pair[0])}`);
}
for days in [0, 1, 30, 59, 60, 366, 10000] { print(date_after("2024-01-01", days)); }
