// nothing catches `exit`
fn risky(step) {
    try {
        if step == 2 { exit("done at " + step); }
        throw "step " + step;
    } catch (problem) {
        print("inside: " + problem);
        throw problem;
    }
}
for step in 0..5 {
    try {
        risky(step);
    } catch (problem) {
        print("outside: " + problem);
    }
    print("round " + step);
}
print("not reached");
