let x = 0;
let i = 0;
while i < 5000000 {
    x += i % 7;
    i += 1;
}
print(x);
