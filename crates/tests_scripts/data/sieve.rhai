let flags = [];
flags.pad(30, true);
let primes = [];
for i in 2..30 {
    if flags[i] {
        primes.push(i);
        let j = i * i;
        while j < 30 { flags[j] = false; j += i; }
    }
}
print(primes);
