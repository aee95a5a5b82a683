// a linked list of maps, where `()` ends it
fn cons(value, rest) { #{ value: value, rest: rest } }

fn from_array(items) {
    let list = ();
    items.reverse();
    for item in items { list = cons(item, list); }
    list
}

fn to_array(list) {
    let items = [];
    while list != () {
        items.push(list.value);
        list = list.rest;
    }
    items
}

fn length(list) { if list == () { 0 } else { 1 + length(list.rest) } }

fn reversed(list) {
    let turned = ();
    while list != () {
        turned = cons(list.value, turned);
        list = list.rest;
    }
    turned
}

fn mapped(list, change) { if list == () { () } else { cons(change.call(list.value), mapped(list.rest, change)) } }

fn inserted(list, value) {
    if list == () || value <= list.value { return cons(value, list); }
    list.rest = inserted(list.rest, value);
    list
}

let list = from_array([2, 5, 9]);
print(list);
print(length(list));
print(list.rest.rest.value);
print(list.rest?.rest?.rest?.value ?? "past the end");
print(to_array(reversed(list)));
print(to_array(mapped(list, |value| value * 10)));
for value in [7, 1, 10] { list = inserted(list, value); }
print(to_array(list));
list.rest.value = 3;
list.rest.rest.rest = ();
print(list);
print(length(()));
