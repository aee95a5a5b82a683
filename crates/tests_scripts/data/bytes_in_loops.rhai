// Bytes are gone through one by one, as ints.
let sum = 0;
for byte in blob(3, 7) { sum += byte; }
print(sum);
for (byte, place) in "ab".to_blob() { print(`${place}: ${byte}`); }
for byte in blob(0, 0) { print("never"); }
