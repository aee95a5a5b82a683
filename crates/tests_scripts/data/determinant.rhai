// determinants by cofactors, and products of matrices
fn minor(matrix, column) {
    let rows = [];
    for (row, at) in matrix {
        if at == 0 { continue; }
        row.remove(column);
        rows.push(row);
    }
    rows
}

fn determinant(matrix) {
    if matrix.len() == 1 { return matrix[0][0]; }
    let sum = 0;
    let sign = 1;
    for (value, column) in matrix[0] {
        sum += sign * value * determinant(minor(matrix, column));
        sign = -sign;
    }
    sum
}

fn product(left, right) {
    left.map(|row| {
        let line = [];
        for column in 0..right[0].len() {
            let sum = 0;
            for (value, at) in row { sum += value * right[at][column]; }
            line.push(sum);
        }
        line
    })
}

let square = [[2, -3, 1], [2, 0, -1], [1, 4, 5]];
let other = [[1, 2, 0], [0, -1, 3], [4, 0, 1]];
print(determinant([[7]]));
print(determinant([[3, 8], [4, 6]]));
print(determinant(square));
print(determinant(other));
let both = product(square, other);
print(both);
print(determinant(both) == determinant(square) * determinant(other));
print(determinant([[1, 2, 3], [4, 5, 6], [7, 8, 9]]));
let identity = [];
for row in 0..4 {
    let line = [0, 0, 0, 0];
    line[row] = row + 1;
    identity.push(line);
}
print(determinant(identity));
print(product([[1, 2, 3]], [[4], [5], [6]]));
