// what two texts have in common, in order
fn lengths(left, right) {
    let table = [];
    for row in 0..=left.len() {
        let line = [];
        line.pad(right.len() + 1, 0);
        table.push(line);
    }
    for (one, row) in left {
        for (two, column) in right {
            table[row + 1][column + 1] = if one == two {
                table[row][column] + 1
            } else {
                max(table[row][column + 1], table[row + 1][column])
            };
        }
    }
    table
}

fn common(left, right) {
    let table = lengths(left, right);
    let text = "";
    let row = left.len();
    let column = right.len();
    while row > 0 && column > 0 {
        if left[row - 1] == right[column - 1] {
            text = left[row - 1] + text;
            row -= 1;
            column -= 1;
        } else if table[row - 1][column] >= table[row][column - 1] {
            row -= 1;
        } else {
            column -= 1;
        }
    }
    text
}

fn difference(before, after) {
    let kept = common(before, after);
    let signs = "";
    for letter in kept {
        while before[0] != letter { signs += "-" + before[0]; before.remove_first(); }
        while after[0] != letter { signs += "+" + after[0]; after.remove_first(); }
        signs += letter;
        before.remove_first();
        after.remove_first();
    }
    for letter in before { signs += "-" + letter; }
    for letter in after { signs += "+" + letter; }
    signs
}

fn remove_first() { this.crop(1); }

print(common("thisisatest", "testing123testing"));
print(common("abc", "abc") + common("abc", "xyz") + common("", "a"));
print(lengths("ab", "ba"));
print(common("agcat", "gac").len());
print(difference("kitten", "mittens"));
print(difference("house", "mouse"));
print(difference("", "new") + difference("old", ""));
