// rows of Pascal's triangle, centred, and what stands in them
fn next_row(row) {
    let next = [1];
    for at in 1..row.len() { next.push(row[at - 1] + row[at]); }
    next.push(1);
    next
}

let rows = [[1]];
while rows.len() < 9 { rows.push(next_row(rows[-1])); }

for row in rows {
    let text = "";
    for (value, at) in row { text += if at == 0 { `${value}` } else { ` ${value}` }; }
    let line = "";
    line.pad((26 - text.len()) / 2, ' ');
    print(line + text);
}
print(rows.map(|row| row.reduce(|sum, value| sum + value, 0)));

let diagonal = [];
for sum in 0..9 {
    let total = 0;
    for at in 0..=sum { total += rows[sum - at].get(at) ?? 0; }
    diagonal.push(total);
}
print(diagonal);

for row in rows {
    let line = "";
    for value in row { line += if value.is_odd { '*' } else { ' ' }; }
    line.trim();
    print(line);
}
