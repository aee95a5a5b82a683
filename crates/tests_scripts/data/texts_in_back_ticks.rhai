// texts with code within: nested, over lines, with blocks
let name = "Ada";
let year = 1843;
print(`${name} wrote in ${year}`);
print(`${year + 1} ${name.to_upper()} ${name[0]} ${[1, "a", 'b']} ${#{ k: () }}`);
print(`outer ${`inner ${`deepest ${1 + 1}`} done`} end`);
print(`no \n escapes, but $ and {braces} and "quotes" and 'these'`);
print(`${if year > 1800 { "late" } else { `early: ${year}` }}`);
print(`sum ${ let sum = 0; for number in 1..=10 { sum += number; } sum }`);
let poem = `
    indented line
second line of ${name}
`;
print(poem.len());
print(poem.split("\n").len());
poem.trim();
print(poem);
print("" + `` + `x` + `${""}`.len());
let both = `${"in double ${quotes}"}`;
print(both);
print(`${name}${name}`.len());
print(type_of(`${1}`) + " " + type_of(1));
let part = "x";
let made = `${part}=${ part += "y"; part }; ${part}`;
print(made);
let lines = ["a", "b"].map(|item| `- ${item}`).reduce(|text, line| `${text}${line};`, "");
print(lines);
print(`${|| 1}` == "" || `${() == ()}` == "true");
