// `exit` at the top level: what follows isn't run
let n = 3;
print("before");
if n > 2 {
    print(`leaving with ${n}`);
    exit(n);
}
print("behind");
