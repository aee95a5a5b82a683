// `exit` ends the whole script, from any depth of calls
fn search(list, wanted, at) {
    if at == list.len() { return "none"; }
    if list[at] == wanted {
        print(`${wanted} is number ${at}`);
        exit();
    }
    let rest = search(list, wanted, at + 1);
    print("back at " + at);
    rest
}
print(search([1, 2, 3], 9, 0));
print(search([5, 6, 7, 8], 7, 0));
print("not reached");
