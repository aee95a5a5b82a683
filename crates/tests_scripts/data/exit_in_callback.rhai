// `exit` within callbacks of callbacks
let rows = [[1, 2], [3, -4], [5, 6]];
let seen = 0;
fn check(number) {
    if number < 0 { print("a negative number: " + number); exit(number); }
    number
}
rows.for_each(|| {
    let row = this.map(|number| { seen += 1; check(number) * 10 });
    print(`${row}, ${seen} seen`);
});
print("not reached");
