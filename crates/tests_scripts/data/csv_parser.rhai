// reads lines of comma-separated values, with quoted fields
fn parse_line(line) {
    let fields = [];
    let field = "";
    let quoted = false;
    let position = 0;
    while position < line.len() {
        let letter = line[position];
        if quoted {
            if letter != '"' {
                field += letter;
            } else if position + 1 < line.len() && line[position + 1] == '"' {
                field += '"';
                position += 1;
            } else {
                quoted = false;
            }
        } else if letter == '"' {
            quoted = true;
        } else if letter == ',' {
            fields.push(field);
            field = "";
        } else {
            field += letter;
        }
        position += 1;
    }
    fields.push(field);
    fields
}

let text = `name,city,remark
Ann,"Paris, France","said ""hello"""
Bob,Rome,
"",Oslo,"a,b,,c"`;

let rows = text.split("\n").map(|line| parse_line(line));
let header = rows.shift();
print(header);
for (row, number) in rows {
    let record = #{};
    for (title, column) in header { record[title] = row[column]; }
    print(`${number + 1}: ${record.city} [${record.remark}]`);
    print(record);
}
print(rows.map(|row| row.len()));
