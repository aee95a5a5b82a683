// a trie of maps: words by their beginnings
fn insert_word(word) {
    if word.is_empty() {
        this.ends = true;
        return;
    }
    let first = word.sub_string(0, 1);
    if first !in this.next { this.next[first] = node(); }
    this.next[first].insert_word(word.sub_string(1));
}

fn node() { #{ ends: false, next: #{} } }

fn find_node(trie, beginning) {
    for letter in beginning {
        trie = trie.next[letter.to_string()];
        if trie == () { return (); }
    }
    trie
}

fn words_below(trie, beginning) {
    let words = if trie.ends { [beginning] } else { [] };
    for letter in trie.next.keys() { words.append(words_below(trie.next[letter], beginning + letter)); }
    words
}

fn complete(trie, beginning) {
    let found = find_node(trie, beginning);
    if found == () { [] } else { words_below(found, beginning) }
}

fn count_nodes(trie) { trie.next.values().reduce(|sum, below| sum + count_nodes(below), 1) }

let trie = node();
for word in ["car", "card", "care", "cat", "dog", "do", "dove"] { trie.insert_word(word); }
print(complete(trie, "car"));
print(complete(trie, "do"));
print(complete(trie, "x"));
print(complete(trie, ""));
print(find_node(trie, "ca").ends);
print(find_node(trie, "do").ends);
print(trie.next.keys());
print(count_nodes(trie));
print(trie.next.d.next.o.next.g);
