// Morse: written by a table, read by a tree
let codes = #{
    a: ".-", b: "-...", c: "-.-.", d: "-..", e: ".", f: "..-.", g: "--.", h: "....", i: "..", j: ".---",
    k: "-.-", l: ".-..", m: "--", n: "-.", o: "---", p: ".--.", q: "--.-", r: ".-.", s: "...", t: "-",
    u: "..-", v: "...-", w: ".--", x: "-..-", y: "-.--", z: "--.."
};

fn encode(codes, text) {
    let words = [];
    for word in text.to_lower().split() {
        let line = "";
        for letter in word {
            if line != "" { line += ' '; }
            line += codes["" + letter] ?? "?";
        }
        words.push(line);
    }
    words.reduce(|all, word| if all == () { word } else { all + " / " + word }) ?? ""
}

fn grow(code, letter) {
    if code == "" { this.letter = letter; return; }
    let way = if code[0] == '.' { "dot" } else { "dash" };
    if way !in this { this[way] = #{}; }
    this[way].grow(code.sub_string(1), letter);
}

fn decode(tree, text) {
    let result = "";
    for part in text.split(' ') {
        if part == "/" { result += ' '; continue; }
        let node = tree;
        for sign in part { node = if sign == '.' { node?.dot } else { node?.dash }; }
        result += node?.letter ?? "?";
    }
    result
}

let tree = #{};
for letter in codes.keys() { tree.grow(codes[letter], letter); }
let sent = encode(codes, "SOS we sink");
print(sent);
print(decode(tree, sent));
print(encode(codes, "a+b"));
print(decode(tree, ".- ...... -...--. -..."));
print(tree.dot.dot.dot.letter + tree.dash.letter);
print(encode(codes, "") == "");
let lengths = codes.keys();
lengths.sort(|left, right| codes[left].len() - codes[right].len());
print(lengths.extract(0, 6));
print(codes.keys().filter(|letter| codes[letter] == ".--." || codes[letter].starts_with("--.")));
