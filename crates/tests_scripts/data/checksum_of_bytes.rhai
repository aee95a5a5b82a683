// checksums over the bytes of texts and blobs
fn string.bytes_of() { this.to_blob().to_array() }

fn byte_sum(bytes) {
    let sum = 0;
    for byte in bytes { sum = (sum + byte) % 256; }
    sum
}

fn exclusive_or(bytes) {
    let sum = 0;
    for byte in bytes { sum ^= byte; }
    sum
}

fn adler(bytes) {
    let low = 1;
    let high = 0;
    for byte in bytes {
        low = (low + byte) % 65521;
        high = (high + low) % 65521;
    }
    (high << 16) | low
}

fn crc(bytes) {
    let sum = 0xffffffff;
    for byte in bytes {
        sum ^= byte;
        for round in 0..8 {
            sum = if sum.get_bit(0) { (sum >> 1) ^ 0xedb88320 } else { sum >> 1 };
        }
    }
    sum ^ 0xffffffff
}

fn fletcher(bytes) {
    let first = 0;
    let second = 0;
    for byte in bytes {
        first = (first + byte) % 255;
        second = (second + first) % 255;
    }
    second << 8 | first
}

for text in ["", "abc", "Wikipedia", "123456789", "grüße"] {
    let bytes = text.bytes_of();
    print(`${bytes.len()}: ${byte_sum(bytes)} ${exclusive_or(bytes)} ${fletcher(bytes).to_hex()} ${adler(bytes).to_hex()} ${crc(bytes).to_hex()}`);
}
let bytes = blob(4, 7);
bytes[0] = 255;
bytes.push(258);
print(bytes);
print(byte_sum(bytes.to_array()));
print(bytes.to_array());
print(exclusive_or(bytes.to_array()));
