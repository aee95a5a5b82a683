// magic squares of odd size, and a check of them
fn magic_square(size) {
    if size.is_even { throw `no square of size ${size}`; }
    let square = [];
    for row in 0..size { let line = []; line.pad(size, 0); square.push(line); }
    let row = 0;
    let column = size / 2;
    for number in 1..=size * size {
        square[row][column] = number;
        let up = (row + size - 1) % size;
        let right = (column + 1) % size;
        if square[up][right] == 0 {
            row = up;
            column = right;
        } else {
            row = (row + 1) % size;
        }
    }
    square
}

fn sums(square) {
    let size = square.len();
    let all = [];
    for row in square { all.push(row.reduce(|sum, value| sum + value, 0)); }
    for column in 0..size { all.push(square.reduce(|sum, row| sum + row[column], 0)); }
    all.push(square.reduce(|sum, row, at| sum + row[at], 0));
    all.push(square.reduce(|sum, row, at| sum + row[-1 - at], 0));
    all
}

fn is_magic(square) {
    let all = sums(square);
    all.dedup();
    all.len() == 1
}

for size in [1, 3, 5] {
    let square = magic_square(size);
    for row in square { print(row); }
    print(`${size}: ${sums(square)[0]}, ${is_magic(square)}`);
}
let broken = magic_square(3);
broken[0][0] += 1;
print(sums(broken));
print(is_magic(broken));
try { magic_square(4) } catch (problem) { print(problem); }
