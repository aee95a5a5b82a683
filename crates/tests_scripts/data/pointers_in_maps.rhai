// tables of functions: commands, operators and handlers
let operators = #{
    "+": |left, right| left + right,
    "-": |left, right| left - right,
    "*": |left, right| left * right,
    max: Fn("max"),
    least: Fn("min")
};
for sign in operators.keys() {
    let operator = operators[sign];
    print(`${sign}: ${operator.call(6, 3)}`);
}
fn apply(table, name, left, right) {
    let found = table[name] ?? { throw `no operator ${name}` };
    found.call(left, right)
}
print(apply(operators, "*", 7, 8));
try { apply(operators, "%", 1, 2); } catch (problem) { print(problem); }

let machine = #{
    value: 0,
    set: |value| { this.value = value; },
    add: |value| this.value += value,
    negate: || { this.value = -this.value; }
};
machine.set(5);
machine.add(10);
machine.negate();
print(machine.value);
machine.add = |value| this.value += value * 100;
machine.add(1);
print(machine.value);
machine.twice = || { this.value *= 2; this.value };
print(machine.twice());

let other = machine;
other.set(1);
print(`${machine.value} ${other.value}`);
let steps = [|x| x + 1, |x| x * x, Fn("to_string"), |x| x + "!"];
print(steps.reduce(|value, step| step.call(value), 4));
let nested = #{ inner: #{ factor: 3, scale: |value| value * this.factor } };
print(nested.inner.scale(14));
nested.inner.factor = 5;
print(nested["inner"].scale(2));
print(type_of(machine.set) + " " + Fn("max").name + " " + machine.set.is_anonymous);
