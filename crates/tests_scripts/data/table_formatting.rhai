// prints records as a table with a column for each field
fn cell(value, width) {
    let text = value.to_string();
    let gap = "";
    gap.pad(width - text.len(), ' ');
    if type_of(value) == "i64" { gap + text } else { text + gap }
}

fn print_table(records) {
    let columns = [];
    for record in records {
        for key in record.keys() { if key !in columns { columns.push(key); } }
    }
    let widths = #{};
    for column in columns {
        widths[column] = column.len();
        for record in records { widths[column] = max(widths[column], (record[column] ?? "-").to_string().len()); }
    }
    let head = "";
    let rule = "";
    for (column, at) in columns {
        if at > 0 { head += " | "; rule += "-+-"; }
        head += cell(column, widths[column]);
        rule.pad(rule.len() + widths[column], '-');
    }
    print(head);
    print(rule);
    for record in records {
        let line = "";
        for (column, at) in columns {
            if at > 0 { line += " | "; }
            line += cell(record[column] ?? "-", widths[column]);
        }
        print(line);
    }
}

let records = [
    #{ name: "hammer", price: 1250, stock: 3 },
    #{ name: "nail", price: 2, stock: 12000, remark: "by weight" },
    #{ name: "saw", stock: 0, sold: true }
];
print_table(records);
records.sort(|left, right| right.stock - left.stock);
print_table(records.map(|record| #{ what: record.name, left: record.stock }));
