// turns matrices: rows to columns, by a quarter, upside down
fn transposed(matrix) {
    let turned = [];
    for column in 0..matrix[0].len() { turned.push(matrix.map(|row| row[column])); }
    turned
}

fn mirrored(matrix) {
    matrix.map(|row| { row.reverse(); row })
}

fn rotated(matrix) { mirrored(transposed(matrix)) }

fn show(matrix) {
    for row in matrix {
        let line = "";
        for value in row {
            let cell = value.to_string();
            let gap = "";
            gap.pad(4 - cell.len(), ' ');
            line += gap + cell;
        }
        print(line);
    }
}

let matrix = [[1, 2, 3], [40, 50, 60]];
show(transposed(matrix));
print(mirrored(matrix));
print(rotated(matrix));
print(rotated(rotated(matrix)));
print(rotated(rotated(rotated(rotated(matrix)))) == matrix);
print(transposed(transposed(matrix)) == matrix);
print(matrix);
print(transposed([[1]]));
let sums = transposed(matrix).map(|column| column.reduce(|sum, value| sum + value, 0));
print(sums);
fn is_symmetric(matrix) { matrix == transposed(matrix) }
print(is_symmetric([[1, 2, 3], [2, 5, 6], [3, 6, 9]]));
print(is_symmetric([[1, 2], [3, 4]]));
let shared_rows = [[0, 0], [0, 0]];
shared_rows[0][1] = 5;
print(shared_rows);
