// mergesort by an order that is handed in; equal items keep their places
fn merged(left, right, before) {
    let items = [];
    let at = 0;
    for item in right {
        while at < left.len() && !before.call(item, left[at]) {
            items.push(left[at]);
            at += 1;
        }
        items.push(item);
    }
    items + left.extract(at)
}

fn merge_sort(items, before) {
    if items.len() < 2 { return items; }
    let right = items.split(items.len() / 2);
    merged(merge_sort(items, before), merge_sort(right, before), before)
}

let numbers = [5, 2, 9, 1, 5, 6, -3, 0];
print(merge_sort(numbers, |left, right| left < right));
print(merge_sort(numbers, |left, right| left > right));
print(numbers);

let people = [
    #{ name: "Dora", age: 31 }, #{ name: "Carl", age: 25 },
    #{ name: "Bea", age: 31 }, #{ name: "Abel", age: 25 }
];
let by_age = merge_sort(people, |left, right| left.age < right.age);
print(by_age.map(|person| person.name));
let by_name = merge_sort(people, |left, right| left.name < right.name);
print(by_name.map(|person| person.name));
print(merge_sort(by_name, |left, right| left.age < right.age).map(|person| `${person.name} ${person.age}`));

let comparisons = 0;
let counting = |left, right| { comparisons += 1; left < right };
print(merge_sort([4, 3, 2, 1], counting));
print(comparisons);
