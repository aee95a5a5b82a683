// a machine with a stack, whose programs are texts
fn take() {
    if this.stack.is_empty() { throw #{ at: this.at, text: "empty stack" }; }
    this.stack.pop()
}

fn run(source) {
    let code = source.split().map(|word| word);
    let machine = #{ stack: [], at: 0, vars: #{}, output: [] };
    let steps = 0;
    while machine.at < code.len() {
        let word = code[machine.at];
        machine.at += 1;
        steps += 1;
        if steps > 500 { throw "too many steps"; }
        switch word {
            "+" | "-" | "*" | "/" | "<" => {
                let right = machine.take();
                let left = machine.take();
                machine.stack.push(switch word {
                    "+" => left + right,
                    "-" => left - right,
                    "*" => left * right,
                    "/" => left / right,
                    _ => if left < right { 1 } else { 0 }
                });
            }
            "dup" => machine.stack.push(machine.stack[-1]),
            "set" => { let name = code[machine.at]; machine.vars[name] = machine.take(); machine.at += 1; }
            "get" => { machine.stack.push(machine.vars[code[machine.at]]); machine.at += 1; }
            "out" => machine.output.push(machine.take()),
            "jump" => machine.at = code[machine.at].parse_int(),
            "if" => machine.at = if machine.take() == 0 { code[machine.at].parse_int() } else { machine.at + 1 },
            _ => machine.stack.push(word.parse_int())
        }
    }
    machine
}

print(run("2 3 + 4 * out").output);
print(run("7 dup * 5 -").stack);
// counts to five
print(run("0 set n get n 1 + set n get n out get n 5 < if 19 jump 3").output);
// factorial of six
let program = "1 set f 6 set n get f get n * set f get n 1 - set n 0 get n < if 26 jump 6 get f out";
let ended = run(program);
print(ended.output);
print(ended.vars);
for source in ["1 +", "8 0 /", "0 jump 0", "1 what"] {
    try {
        print(run(source).stack);
    } catch (problem) {
        print(if type_of(problem) == "map" { problem.text ?? "refused" } else { problem });
    }
}
