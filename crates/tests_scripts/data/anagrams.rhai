// groups words that have the same letters
fn sorted_letters(word) {
    let letters = word.to_lower().to_chars();
    letters.sort();
    letters.reduce(|text, letter| text + letter, "")
}

let words = "listen silent Tinsel enlist google elbow below cat act tac state taste dog";
let groups = #{};
for word in words.split(' ') {
    let key = sorted_letters(word);
    if key !in groups { groups[key] = []; }
    groups[key].push(word);
}
print(groups.len());

let lists = groups.values();
lists.sort(|left, right| {
    let longer = right.len() - left.len();
    if longer != 0 { longer } else if left[0] < right[0] { -1 } else { 1 }
});
for list in lists { print(list); }

let alone = groups.filter(|key, list| list.len() == 1);
print(alone);
print(sorted_letters("Mississippi"));

fn are_anagrams(left, right) { sorted_letters(left) == sorted_letters(right) }
print(are_anagrams("Debit card", "Bad credit"));
print(are_anagrams("apple", "papel") && !are_anagrams("aab", "abb"));
