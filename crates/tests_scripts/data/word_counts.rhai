let text = "the cat and the dog and the bird ";
let counts = #{};
let word = "";
for c in text {
    if c == ' ' {
        if word != "" {
            if counts.contains(word) { counts[word] += 1; } else { counts[word] = 1; }
        }
        word = "";
    } else {
        word += c;
    }
}
print(counts);
