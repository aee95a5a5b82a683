// goes through a matrix in a spiral, and fills one so
fn spiral(matrix) {
    let order = [];
    let top = 0;
    let bottom = matrix.len() - 1;
    let left = 0;
    let right = matrix[0].len() - 1;
    while top <= bottom && left <= right {
        for column in left..=right { order.push(matrix[top][column]); }
        for row in top + 1..=bottom { order.push(matrix[row][right]); }
        if top < bottom {
            let column = right - 1;
            while column >= left { order.push(matrix[bottom][column]); column -= 1; }
        }
        if left < right {
            let row = bottom - 1;
            while row > top { order.push(matrix[row][left]); row -= 1; }
        }
        top += 1;
        bottom -= 1;
        left += 1;
        right -= 1;
    }
    order
}

fn filled(size) {
    let matrix = [];
    for row in 0..size { let line = []; line.pad(size, 0); matrix.push(line); }
    let steps = [[0, 1], [1, 0], [0, -1], [-1, 0]];
    let row = 0;
    let column = 0;
    let direction = 0;
    for number in 1..=size * size {
        matrix[row][column] = number;
        let down = row + steps[direction][0];
        let across = column + steps[direction][1];
        if down !in 0..size || across !in 0..size || matrix[down][across] != 0 {
            direction = (direction + 1) % 4;
        }
        row += steps[direction][0];
        column += steps[direction][1];
    }
    matrix
}

print(spiral([[1, 2, 3], [4, 5, 6], [7, 8, 9]]));
print(spiral([[1, 2, 3, 4], [5, 6, 7, 8], [9, 10, 11, 12]]));
print(spiral([[1], [2], [3]]));
print(spiral([[1, 2, 3]]));
for row in filled(5) { print(row); }
let counted = [];
for number in 1..=25 { counted.push(number); }
print(spiral(filled(5)) == counted);
