let b = blob(2, 258);
b.push(7);
b[0] = 300;
print(b);
print(b[0]);
b += 'A';
print(b.len());
print(b.to_array());
