// methods of one type go before those of any
fn int.double() { this * 2 }
fn int.is_between(low, high) { this >= low && this <= high }
fn "i64".grow(step) { this += step; }
fn string.shout() { this.to_upper() + "!" }
fn string.words() { this.split().len() }
fn char.twice() { "" + this + this }
fn bool.flip() { this = !this; }
fn array.second() { this[1] }
fn array.swap_ends() {
    let first = this[0];
    this[0] = this[-1];
    this[-1] = first;
}
fn map.size() { `${this.len()} fields` }
fn size() { `no size of ${type_of(this)}` }
fn string.size() { `${this.len()} letters` }

print((21).double());
print((5).double().double());
print([1, 5, 9].filter(|number| number.is_between(2, 9)));
let number = 1;
number.grow(4);
number.grow(-2);
print(number);
print("hello".shout());
print("a few words".words().double());
print('z'.twice());
let on = true;
on.flip();
print(on);
let list = ["a", "b", "c"];
list.swap_ends();
print(list);
print(list.second().shout());
let rows = [[1, 2], [3, 4]];
rows[1].swap_ends();
rows.second()[0].grow(10);
print(rows);
for value in [#{ a: 1 }, "four", 5, [6], 'c'] { print(value.size()); }
try { "text".double(); } catch { print("no such method of texts"); }
let held = #{ count: 5, list: [7, 8] };
held.count.grow(10);
held.list[0].grow(1);
print(held);
print(["a", "bc"].map(|text| text.size()));
