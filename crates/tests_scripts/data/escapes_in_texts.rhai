// how texts and characters are written
print("tab[\t] quote[\"] backslash[\\] single['] hex[\x41\x7a]");
print("letters: \u03b1\u03b2 \u00e9 and \U0001F600".len());
print("two\nlines".split("\n"));
print("one \
       line");
print(#"raw \n "quoted"? no: \t stays"#);
print(`back \t ticks`);
print("carriage\rreturn".len());
print("say ""hi"" twice");
let letters = ['a', '\t', '\n', '\'', '"', '\\', '\u00e9', '\x41'];
print(letters.map(|letter| letter.to_int()));
debug("line\nend \"q\" \\ tab\t");
debug('x');
print(["in an array\n", '\n']);
print("a" + '\u0062' + "\x63" == "abc");
print("".is_empty() && " ".len() == 1);
print('a' < 'b' && "a" < "b" && "Z" < "a");
let nul = "\x00";
print(nul.len() + nul.bytes);
