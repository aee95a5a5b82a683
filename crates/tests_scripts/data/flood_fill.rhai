// fills areas of a picture, and counts those that hang together
fn fill_area(row, column, wanted, colour) {
    let waiting = [[row, column]];
    let size = 0;
    while !waiting.is_empty() {
        let place = waiting.pop();
        let down = place[0];
        let across = place[1];
        if down < 0 || down >= this.len() || across < 0 || across >= this[0].len() { continue; }
        if this[down][across] != wanted { continue; }
        this[down][across] = colour;
        size += 1;
        waiting.append([[down - 1, across], [down + 1, across], [down, across - 1], [down, across + 1]]);
    }
    size
}

let picture = [
    "..##....",
    ".#..#.##",
    ".#..#..#",
    "..##..##",
    "#......."
].map(|line| line.to_chars());

fn show(picture) {
    for line in picture { print(line.reduce(|text, letter| text + letter, "")); }
}

print(picture.fill_area(1, 2, '.', 'o'));
show(picture);
let sizes = [];
for row in 0..picture.len() {
    for column in 0..picture[0].len() {
        if picture[row][column] == '#' { sizes.push(picture.fill_area(row, column, '#', '1')); }
    }
}
print(sizes);
print(picture.fill_area(0, 0, '.', ' '));
print(picture.fill_area(0, 0, '.', ' '));
show(picture);
