// a parser that descends: numbers, names, signs, brackets and calls
fn skip_blanks() { while this.at < this.text.len() && this.text[this.at] == ' ' { this.at += 1; } }

fn take_if(signs) {
    this.skip_blanks();
    if this.at < this.text.len() && this.text[this.at] in signs {
        this.at += 1;
        return this.text[this.at - 1];
    }
    ()
}

fn parse_sum() {
    let value = this.parse_product();
    loop {
        switch this.take_if("+-") {
            '+' => value += this.parse_product(),
            '-' => value -= this.parse_product(),
            _ => return value
        }
    }
}

fn parse_product() {
    let value = this.parse_atom();
    loop {
        let sign = this.take_if("*/%");
        if sign == () { return value; }
        let right = this.parse_atom();
        if sign != '*' && right == 0 { throw "division by zero"; }
        value = switch sign { '*' => value * right, '/' => value / right, '%' => value % right };
    }
}

fn parse_atom() {
    if this.take_if("-") != () { return -this.parse_atom(); }
    if this.take_if("(") != () {
        let value = this.parse_sum();
        if this.take_if(")") == () { throw `expected ) at ${this.at}`; }
        return value;
    }
    let word = "";
    while this.at < this.text.len() && this.text[this.at] in "0123456789abcdefghijklmnopqrstuvwxyz" {
        word += this.text[this.at];
        this.at += 1;
    }
    if word == "" { throw `expected a number at ${this.at}`; }
    if word[0] <= '9' { word.parse_int() } else { this.names[word] ?? { throw `unknown name ${word}` } }
}

fn calculate(text, names) {
    let parser = #{ text: text, at: 0, names: names };
    let value = parser.parse_sum();
    parser.skip_blanks();
    if parser.at < text.len() { throw `left over: ${text.sub_string(parser.at)}`; }
    value
}

let names = #{ width: 12, height: 5 };
for text in ["1 + 2 * 3", "(1 + 2) * 3", "width * height - 10", "-(3 - 10) % 4", "100 / 7 / 2", "--5", "2 * (3 + 4", "7 +", "8 / (4 - 4)", "depth", "1 2"] {
    try { print(`${text} = ${calculate(text, names)}`); } catch (problem) { print(`${text}: ${problem}`); }
}
