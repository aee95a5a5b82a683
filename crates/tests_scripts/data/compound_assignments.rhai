// operators that assign, at variables, items, fields and deeper
let number = 10;
number += 5;
number -= 3;
number *= 4;
number /= 5;
number %= 7;
print(number);
number **= 5;
number <<= 3;
number >>= 1;
number |= 1;
number &= 0b1111;
number ^= 0b1010;
print(number);

let items = [1, 2, [3, 4]];
items[0] += 10;
items[-1][0] *= 5;
items[items.len() - 2] -= 2;
items += "end";
items[2] += [5];
print(items);

let record = #{ count: 1, name: "a", list: [1], deep: #{ deeper: #{ value: 7 } } };
record.count += 1;
record["name"] += "b" + 'c';
record.list += 2;
record.list += [3, 4];
record.deep.deeper.value **= 2;
record.deep += #{ more: true };
record += #{ count: 100, extra: () };
print(record);

let text = "x";
text += 1;
text += 'y';
text += true;
text += "";
print(text);
let grid = [[0, 0], [0, 0]];
for step in 0..4 { grid[step / 2][step % 2] += step * step; }
print(grid);
let flag = true;
flag &= false;
print(flag);
flag |= 3 > 2;
print(flag);
let at = 0;
let next = || { at += 1; at - 1 };
let row = [5, 5, 5];
row[next.call()] += 1;
row[next.call()] -= 1;
print(`${row} ${at}`);
