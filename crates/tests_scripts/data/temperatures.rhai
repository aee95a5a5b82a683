// temperatures in tenths of a degree, by ints alone
fn divided(number, divisor) {
    // to the nearest, halves away from zero
    if number < 0 { -divided(-number, divisor) } else { (number + divisor / 2) / divisor }
}

fn to_fahrenheit(tenths) { divided(tenths * 9, 5) + 320 }
fn to_celsius(tenths) { divided((tenths - 320) * 5, 9) }
fn to_kelvin(tenths) { tenths + 2732 }

fn written(tenths) {
    let sign = if tenths < 0 { "-" } else { "" };
    let size = tenths.abs();
    `${sign}${size / 10}.${size % 10}`
}

for celsius in [-400, -178, 0, 5, 100, 366, 370, 1000] {
    let fahrenheit = to_fahrenheit(celsius);
    let text = written(celsius) + " C";
    let gap = "";
    gap.pad(9 - text.len(), ' ');
    print(`${gap}${text} = ${written(fahrenheit)} F = ${written(to_kelvin(celsius))} K`);
    if to_celsius(fahrenheit) != celsius { print("not again " + to_celsius(fahrenheit)); }
}
let week = [215, 198, -7, 230, 187, 201, 225];
let mean = divided(week.reduce(|sum, degrees| sum + degrees, 0), week.len());
print(`mean ${written(mean)}`);
let feel = week.map(|degrees| switch degrees {
    -1000..0 => "frost",
    0..200 => "cool",
    200..220 => "mild",
    _ => "warm"
});
print(feel);
print(to_celsius(4510) / 10);
