// switch: several values, ranges, guards, types, nested ones
fn describe(value) {
    switch value {
        0 => "zero",
        1 | 3 | 5 | 7 | 9 => "small and odd",
        2..=8 => "small and even",
        10..100 if value % 10 == 0 => "round",
        100..=999 => "three digits",
        "yes" | "y" | true => "agreed",
        'y' => "a letter",
        () => "nothing",
        _ => "something else"
    }
}
for value in [0, 5, 6, 20, 25, 99, 100, 999, 1000, -1, "y", 'y', true, false, (), "1", 10] {
    print(`${value}: ${describe(value)}`);
}

fn grade(points, bonus) {
    let sum = points + if bonus { 5 } else { 0 };
    switch sum / 10 {
        10 | 9 => 'A',
        8 => 'B',
        7 if sum % 10 >= 5 => 'C',
        7 => 'D',
        _ => if bonus { 'E' } else { 'F' }
    }
}
print([95, 88, 76, 71, 40].map(|points| grade(points, false)));
print([95, 88, 73, 66, 40].map(|points| grade(points, true)));

let kind = switch type_of([]) { "array" => switch [1, 2].len() { 2 => "pair", _ => "list" }, _ => "none" };
print(kind);
let count = 0;
for round in 0..5 {
    switch round {
        1 => continue,
        3 => { break; }
        _ => count += 10
    }
    count += 1;
}
print(count);
