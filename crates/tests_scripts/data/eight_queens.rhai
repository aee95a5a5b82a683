// places eight queens on a board so that none attacks another
fn is_safe(columns, column) {
    let row = columns.len();
    for (other, above) in columns {
        if other == column || (other - column).abs() == row - above { return false; }
    }
    true
}

fn first_solution(columns, size) {
    if columns.len() == size { return columns; }
    for column in 0..size {
        if is_safe(columns, column) {
            let found = first_solution(columns + [column], size);
            if found != () { return found; }
        }
    }
    ()
}

fn count_solutions(columns, size) {
    if columns.len() == size { return 1; }
    let count = 0;
    for column in 0..size {
        if is_safe(columns, column) { count += count_solutions(columns + [column], size); }
    }
    count
}

let solution = first_solution([], 8);
print(solution);
for column in solution {
    let line = "";
    for at in 0..8 { line += if at == column { 'Q' } else { '.' }; }
    print(line);
}
for size in 1..=7 { print(`${size}: ${count_solutions([], size)}`); }
print(first_solution([], 3) == ());
