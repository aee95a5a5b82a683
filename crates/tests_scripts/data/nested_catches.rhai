// catches within each other, thrown on, in loops and functions
let log = [];
try {
    try {
        throw "first";
    } catch (problem) {
        log.push(`inner ${problem}`);
        throw problem + " again";
    }
} catch (problem) {
    log.push(`outer ${problem}`);
}
print(log);

fn attempt(rounds, fails) {
    let tries = 0;
    while tries < rounds {
        tries += 1;
        try {
            if tries <= fails { throw `try ${tries}`; }
            return `done by ${tries}`;
        } catch (problem) {
            if tries == rounds { throw #{ gave_up: tries, last: problem }; }
        }
    }
}
print(attempt(5, 2));
try { attempt(3, 9); } catch (problem) { print(problem); }

fn guarded(action, otherwise) {
    try { return action.call(); } catch { return otherwise; }
}
print(guarded(|| 10 / 2, -1));
print(guarded(|| 10 / 0, -1));
print(guarded(|| guarded(|| [][0], "inner"), "outer"));

let kept = [];
for number in [4, 0, 2] {
    try {
        if number == 2 { break; }
        kept.push(8 / number);
    } catch {
        kept.push("none");
        continue;
    }
    kept.push("ok");
}
print(kept);

let state = #{ depth: 0 };
let deeper = |limit| {
    state.depth += 1;
    if state.depth > limit { throw "deep"; }
    state.depth
};
try { loop { deeper.call(3); } } catch (problem) { print(`${problem} at ${state.depth}`); }
