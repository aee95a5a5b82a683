// parts of texts: read, cut, replaced and put together
let text = "programming language";
print(text.sub_string(0, 7) + "|" + text.sub_string(12) + "|" + text.sub_string(-8, 4));
print(text[0..4] + "|" + text[8..=10] + "|" + text[-4..20]);
print(`${text[0]} ${text[-1]} ${text[11]}.`);
print(text.index_of("m") + text.index_of('m', 7) + text.index_of("absent"));
print([text.starts_with("pro"), text.ends_with("age"), text.contains("gram"), "ming l" in text]);

let cut = text;
cut.crop(3, 4);
print(cut);
cut.truncate(2);
cut.pad(6, '*');
print(cut);
cut[0] = 'G';
cut[-2..6] = "??";
print(cut);
let spaced = "  a  b ";
spaced.trim();
print(`[${spaced}]`);
print("a,b,,c".split(','));
print("key=value=more".split("=", 2));
print("one two".split_rev(' '));
print("hello".split(2));
let word = "banana";
word.replace("an", "<>");
print(word);
word.remove("<>");
print(word);
let title = "";
for part in "the life of brian".split() { title += part[0].to_upper() + part.sub_string(1) + " "; }
title.trim();
print(title);
let camel = "snake_case_name".split('_').reduce(|all, part, at| all + if at == 0 { part } else { part[0].to_upper() + part.sub_string(1) }, "");
print(camel);
print("αβγδ"[1..3] + "αβγδ".sub_string(3) + "αβγδ".len() + "αβγδ".bytes);
let short = "abc";
print(`${short.sub_string(5)}|${short.sub_string(1, 99)}|${short.sub_string(-9, 2)}`);
