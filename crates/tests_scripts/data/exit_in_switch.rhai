// `exit` in a `switch` within loops, and of a text's function
let state = "start";
loop {
    for (letter, at) in "go!x" {
        switch letter {
            'g' => state = "walking",
            'o' if at == 1 => { print(state); }
            '!' => { print(`${letter} ends it`); ("left while " + state).exit(); }
            _ => print("no")
        }
    }
    print("not reached");
}
