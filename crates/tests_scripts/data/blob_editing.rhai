// bytes: made, changed, cut, turned and read
let bytes = blob(4, 0x41);
print(bytes);
bytes[1] = 0x1ff;
bytes[-1] += 2;
bytes.push(0x0a);
bytes.push(300);
print(bytes);
print(`${bytes.len()} ${bytes[0]} ${bytes[-1]} ${bytes.get(1)}`);
print(bytes.pop() + bytes.remove(1));
bytes.set(0, 0x7a);
print(bytes);
bytes.reverse();
print(bytes.to_array());
let more = "hé".to_blob();
bytes.append(more);
bytes += "!";
print(bytes);
print(bytes.extract(4).as_string());
print(bytes.extract(0, 2));
print(bytes.contains(0x43) && 0x0a in bytes && 1 !in bytes);
print(more == "hé".to_blob());
print(more != blob(3, 0));

let number = blob(8, 0);
number.write_le(0, 4, 0x01020304);
print(number);
print(number.parse_le_int(0, 4) == 0x01020304);
print(number.parse_le_int(0, 2));
number.write_ascii(4, 4, "rhai");
print(number.extract(4..8).as_string());
let copy = number;
copy.clear();
print(`${copy.len()} ${number.len()} ${copy}`);
try { number[8] } catch { print("no ninth byte"); }
let long = blob(0, 0);
for value in 1..=10 { long.push(value * value); }
print(long);
