// the set of Mandelbrot by ints with a fixed point
const ONE = 10000;
let rounds_at = |real, imaginary, limit| {
    let x = 0;
    let y = 0;
    let rounds = 0;
    while rounds < limit {
        let xx = x * x / ONE;
        let yy = y * y / ONE;
        if xx + yy > 4 * ONE { break; }
        y = 2 * x * y / ONE + imaginary;
        x = xx - yy + real;
        rounds += 1;
    }
    rounds
};

let shades = " .:-=+*#";
for row in -5..=5 {
    let line = "";
    for column in -20..=10 {
        let rounds = rounds_at.call(column * 1000, row * 2200, 24);
        line += if rounds == 24 { '@' } else { shades[rounds % shades.len()] };
    }
    print(line);
}
print(rounds_at.call(0, 0, 50));
print(rounds_at.call(3 * ONE, 0, 50));
print(rounds_at.call(-7500, 1000, 50));
