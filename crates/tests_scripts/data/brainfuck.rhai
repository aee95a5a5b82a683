// an interpreter of a language of eight signs
fn jumps_of(code) {
    let jumps = #{};
    let open = [];
    for (sign, at) in code {
        if sign == '[' {
            open.push(at);
        } else if sign == ']' {
            let start = open.pop() ?? { throw `] at ${at} closes nothing` };
            jumps[`${start}`] = at;
            jumps[`${at}`] = start;
        }
    }
    if !open.is_empty() { throw `${open.len()} left open`; }
    jumps
}

fn run(code, input) {
    let signs = code.to_chars();
    let jumps = jumps_of(signs);
    let tape = [0];
    let head = 0;
    let at = 0;
    let output = "";
    let small = " !\"#$%&'()*+,-./0123456789:;<=>?@ABCDEFGHIJKLMNOPQRSTUVWXYZ[\\]^_`abcdefghijklmnopqrstuvwxyz";
    while at < signs.len() {
        switch signs[at] {
            '>' => { head += 1; tape.pad(head + 1, 0); }
            '<' => head -= 1,
            '+' => tape[head] = (tape[head] + 1) % 256,
            '-' => tape[head] = (tape[head] + 255) % 256,
            '.' => output += if tape[head] < 32 { '?' } else { small[tape[head] - 32] },
            ',' => tape[head] = if input == "" { 0 } else { let first = input[0]; input.crop(1); first.to_int() },
            '[' if tape[head] == 0 => at = jumps[`${at}`],
            ']' if tape[head] != 0 => at = jumps[`${at}`]
        }
        at += 1;
    }
    #{ output: output, tape: tape }
}

let hello = "++++++++[>++++[>++>+++>+++>+<<<<-]>+>+>->>+[<]<-]>>.>---.+++++++..+++.>>.<-.<.+++.------.--------.>>+.";
print(run(hello, "").output);
print(run(",[.,]", "echo").output);
print(run("+++++[>+++>++<<-]", "").tape);
print(run(">,>,<[->+<]>.", "!!").output);
print(run("-[-]", "").tape);
for wrong in ["[[]", "+]"] { try { run(wrong, ""); } catch (problem) { print(problem); } }
