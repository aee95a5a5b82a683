// constants: hidden by later names, seen by closures, never changed
const LIMIT = 10;
const NAMES = ["a", "b"];
const POINT = #{ x: 1, y: [2] };
{
    const LIMIT = LIMIT * 2;
    print(LIMIT);
    let LIMIT = "a variable now";
    LIMIT += "!";
    print(LIMIT);
}
print(LIMIT);

let refused = [];
try { LIMIT = 11; } catch (problem) { refused.push(problem.line); }
try { LIMIT += 1; } catch (problem) { refused.push(problem.line); }
try { NAMES[0] = "z"; } catch (problem) { refused.push(problem.line); }
try { POINT.y[0] = 5; } catch (problem) { refused.push(problem.line); }
try { NAMES.push("c"); } catch (problem) { refused.push(problem.line); }
print(refused);
print(`${LIMIT} ${NAMES} ${POINT}`);

let copy = NAMES;
copy.push("c");
print(copy);
print(NAMES.len());
let area = |width| width * LIMIT;
print(area.call(4));

fn sees_nothing(value) { is_def_var("LIMIT") || value > 100 }
print(sees_nothing(LIMIT));
fn grown(list) { list.push("grown"); list }
print(grown(NAMES));
print(NAMES);
for round in 0..2 {
    const SQUARE = round * round + LIMIT;
    print(SQUARE);
}
const LATER = LIMIT + NAMES.len();
print(LATER);
