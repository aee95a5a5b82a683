// what is assigned, handed over, stored and returned is a copy
let list = [1, [2, 3]];
let copy = list;
copy[0] = 100;
copy[1].push(4);
print(`${list} ${copy}`);

let record = #{ name: "a", tags: ["x"] };
let other = record;
other.tags.push("y");
other.name += "!";
print(record);
print(other);

fn change(value) {
    value.tags.push("inside");
    value.name = "changed";
    value
}
let result = change(record);
print(`${record.name} ${result.name} ${result.tags}`);

let shelf = [record, record];
shelf[0].name = "first";
print(shelf.map(|item| item.name));
record.name = "later";
print(shelf[1].name);

let inner = [0];
let outer = [inner, inner];
inner[0] = 9;
outer[0][0] = 5;
print(`${inner} ${outer}`);
for item in outer { item[0] = 77; }
print(outer);
let text = "abc";
let same = text;
same[0] = 'X';
same.make_upper();
print(text + same);
let bytes = blob(2, 1);
let twin = bytes;
twin[0] = 255;
print(`${bytes} ${twin}`);
let row = [0, 0];
let grid = [];
for number in 0..2 { grid.push(row); grid[number][number] = 1; row[0] += 5; }
print(grid);
fn fresh() { let made = []; made.push(made.len()); made }
print(fresh() + fresh());
print(list == [1, [2, 3]] && copy != list && shelf[1] != shelf[0]);
