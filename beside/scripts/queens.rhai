fn place(n, row, columns, up, down) {
    if row == n { return 1; }
    let found = 0;
    for column in 0..n {
        let u = row + column;
        let d = row - column + n;
        if !columns[column] && !up[u] && !down[d] {
            let c2 = columns; let u2 = up; let d2 = down;
            c2[column] = true; u2[u] = true; d2[d] = true;
            found += place(n, row + 1, c2, u2, d2);
        }
    }
    found
}
let columns = []; let up = []; let down = [];
for i in 0..17 { columns.push(false); up.push(false); down.push(false); }
print(place(8, 0, columns, up, down));
