// writes values as JSON, indented
fn spaces(count) {
    let text = "";
    text.pad(count, ' ');
    text
}

fn quoted(text) {
    text.replace("\\", "\\\\");
    text.replace("\"", "\\\"");
    text.replace("\n", "\\n");
    "\"" + text + "\""
}

fn to_text(value, depth) {
    let inner = spaces(depth * 2 + 2);
    switch type_of(value) {
        "()" => "null",
        "string" => quoted(value),
        "char" => quoted(value.to_string()),
        "array" if value.is_empty() => "[]",
        "array" => joined(value.map(|item| inner + to_text(item, depth + 1)), "[", "]", depth),
        "map" if value.is_empty() => "{}",
        "map" => joined(value.keys().map(|key| inner + quoted(key) + ": " + to_text(value[key], depth + 1)), "{", "}", depth),
        _ => value.to_string()
    }
}

fn joined(parts, first, last, depth) {
    let text = first;
    for (part, at) in parts {
        if at > 0 { text += ","; }
        text += "\n" + part;
    }
    text + "\n" + spaces(depth * 2) + last
}

let value = #{
    name: "a \"quoted\" name",
    path: "c:\\temp",
    count: -3,
    done: false,
    nothing: (),
    letter: 'x',
    rest: [1, [], #{}, [true, "two\nlines"], #{ deep: #{ deeper: 0 } }]
};
print(to_text(value, 0));
print(to_text([], 0));
