// closures share what they capture, with each other and with the script
let count = 0;
let up = |step| count += step;
let read = || count;
up.call(2);
up.call(3);
print(read.call());
count = 40;
up.call(1);
print(`${count} ${read.call()}`);

let list = [];
let push_all = |items| { for item in items { list.push(item); } };
push_all.call([1, 2]);
list.push(3);
push_all.call(["x"]);
print(list);
let copy = list;
copy.push("only in the copy");
print(list.len());

fn counter(start) {
    let at = start;
    #{ next: || { at += 1; at }, back: || { at -= 1; at }, peek: || at }
}
let first = counter(10);
let second = counter(0);
first.next();
first.next();
second.back();
print(`${first.peek()} ${second.peek()}`);
first.back();
print(first.peek());

let makers = [];
for number in 1..=3 {
    let kept = number * 10;
    makers.push(|plus| { kept += plus; kept });
}
print(makers.map(|maker| maker.call(1)));
print(makers.map(|maker| maker.call(1)));

let name = "before";
let greet = || "hi " + name;
fn rename(name) { name = "inside"; name }
print(rename(name) + ", " + greet.call());
name = "after";
print(greet.call());
let nested = || { let inner = || { count += 1; count }; inner.call(); inner.call() };
print(nested.call());
print(count);
