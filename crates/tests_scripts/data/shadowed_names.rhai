// later names hide earlier ones, each until its block ends
let value = 1;
let value = value + 1;
let value = `${value} as text`;
print(value);

let level = "outer";
{
    print(level);
    let level = level + " middle";
    {
        let level = level + " inner";
        print(level);
    }
    print(level);
}
print(level);

let number = 5;
if number > 3 {
    let number = number * 100;
    number += 1;
    print(number);
} else {
    let number = 0;
}
print(number);

for number in 0..2 { let number = number + 50; print(number); }
print(number);

fn changed(value) {
    let value = value * 2;
    { let value = value + 1; value += 100; }
    value
}
print(changed(number));

let show = || number;
let number = "a newer one";
print(show.call());
print(number);
let add = |number| { let number = number + 1; number };
print(add.call(1));
let total = 0;
while total < 3 { let step = 1; total += step; let total = 50; }
print(total);
let x = 1;
let f = |y| { let x = x + y; x };
print(f.call(10) + f.call(20) + x);
