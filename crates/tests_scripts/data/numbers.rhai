print(0xff + 0b101 + 1_000);
print(0xFFFFFFFFFFFFFFFF);
print(-9223372036854775807 - 1);
print(5 / 2 * 2);
print(1 << 63);
print(-8 >> 1);
print(2 ** 10);
