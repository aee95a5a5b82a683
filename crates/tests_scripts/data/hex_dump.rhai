// dumps bytes as hex, with the letters beside
fn hex(number, width) {
    let text = number.to_hex();
    while text.len() < width { text = "0" + text; }
    text
}

fn dump(bytes) {
    let lines = [];
    let start = 0;
    while start < bytes.len() {
        let line = hex(start, 4) + " ";
        let letters = "";
        for byte in bytes.extract(start, 8).to_array() {
            line += " " + hex(byte, 2);
            letters += if byte in 32..127 { " !\"#$%&'()*+,-./0123456789:;<=>?@ABCDEFGHIJKLMNOPQRSTUVWXYZ[\\]^_`abcdefghijklmnopqrstuvwxyz{|}~"[byte - 32] } else { '.' };
        }
        line.pad(30, ' ');
        lines.push(line + "|" + letters + "|");
        start += 8;
    }
    lines
}

fn parse_dump(lines) {
    let bytes = blob(0, 0);
    for line in lines {
        let codes = line.sub_string(6, 23);
        for code in codes.split() { bytes.push(code.parse_int(16)); }
    }
    bytes
}

let text = "Hello, wörld!\nTab\t~ end\\";
let bytes = text.to_blob();
bytes.push(0);
bytes.push(255);
let lines = dump(bytes);
for line in lines { print(line); }
let again = parse_dump(lines);
print(again.len());
print(again == bytes);
print(again.extract(0, 5).as_string());
print(bytes.extract(0, 10));
print(dump(blob(0, 0)));
