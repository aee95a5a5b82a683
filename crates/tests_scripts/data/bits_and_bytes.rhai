// single bits, and parts of the 64 bits of an int
let n = 0b1011;
print(n.get_bit(0));
print(n.get_bit(-1));
print(n.get_bits(1, 3));
print(n.get_bits(1..3));
n.set_bits(4, 4, 0x1f);
print(n);
n.set_bit(-64, false);
print(n);
print(n.get_bits(77, 0));
try { n.get_bit(64); } catch (e) { print(e.message); }
try { n.set_bits(-65, 2, 1); } catch (e) { print(e.message); }
let top = 0;
top.set_bits(-4, 10, 7);
print(top.to_hex());
print((-1).to_octal());
print(6.to_binary());

// ints and texts in the bytes of a blob
let b = blob(4, 0);
b.write_le(1, 2, 0x010203);
print(b.to_array());
b.write_be(-2, 8, 0x0102030405060708);
print(b.to_array());
print(b.parse_le_int(1, 2));
print(b.parse_be_int(3..4).to_hex());
print(b.parse_le_int(20, 3));
b.write_ascii(0, 3, "aλb€cd");
print(b.to_array());
b.write_utf8(2..9, "λx");
print(b.as_string());
b.append("!");
b.append('λ');
print(b.len());
print(b.as_string());

// characters
print('é'.to_upper());
print('ß'.to_upper());
print('A'.to_int());
