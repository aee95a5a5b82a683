// fills templates: fields, lists and defaults
fn fill(template, fields) {
    for key in fields.keys() { template.replace("{{" + key + "}}", fields[key].to_string()); }
    template
}

fn fill_strictly(template, fields) {
    let text = "";
    loop {
        let start = template.index_of("{{");
        if start < 0 { break; }
        let end = template.index_of("}}", start);
        if end < 0 { throw `open field at ${start}`; }
        text += template.sub_string(0, start);
        let parts = template[start + 2..end].split('|');
        let name = parts[0];
        name.trim();
        text += fields[name] ?? parts.get(1) ?? throw_missing(name);
        template.crop(end + 2);
    }
    text + template
}

fn throw_missing(name) { throw `no field ${name}`; }

print(fill("Dear {{name}}, you are {{age}}.", #{ name: "Ann", age: 30 }));
print(fill("{{a}}{{b}}{{a}} {{c}}", #{ a: 1, b: [2] }));
let letter = `To: {{ who }}
We owe you {{sum|nothing}}.
{{end|}}`;
print(fill_strictly(letter, #{ who: "Bob" }));
print(fill_strictly(letter, #{ who: "Cid", sum: 12, end: "Bye" }));
for wrong in ["{{x}}", "a {{b"] {
    try { print(fill_strictly(wrong, #{})); } catch (problem) { print(problem); }
}
let row = "<li>{{name}}: {{price}}</li>";
let list = "";
for item in [#{ name: "tea", price: 3 }, #{ name: "<b>", price: 0 }] {
    let safe = item.name;
    safe.replace("<", "&lt;");
    safe.replace('>', "&gt;");
    item.name = safe;
    list += fill(row, item);
}
print("<ul>" + list + "</ul>");
