// what a hero carries: stacks, weight, trade
fn new_hero(name, gold) { #{ name: name, gold: gold, limit: 20, bag: #{} } }

fn weight() {
    let sum = 0;
    for item in this.bag.keys() { sum += this.bag[item].weight * this.bag[item].count; }
    sum
}

fn put(item, weight, count) {
    if this.weight() + weight * count > this.limit { throw `${item} is too heavy for ${this.name}`; }
    if item in this.bag { this.bag[item].count += count; } else { this.bag[item] = #{ weight: weight, count: count }; }
    this.bag[item].count
}

fn drop(item, count) {
    let held = this.bag[item]?.count ?? 0;
    if held < count { throw #{ item: item, held: held, wanted: count }; }
    if held == count { this.bag.remove(item); } else { this.bag[item].count -= count; }
    held - count
}

fn buy(item, weight, price) {
    if this.gold < price { return false; }
    this.put(item, weight, 1);
    this.gold -= price;
    true
}

let hero = new_hero("Kim", 30);
print(hero.put("arrow", 1, 6));
print(hero.put("arrow", 1, 4));
print(hero.put("sword", 7, 1));
print(hero.weight());
for offer in [["shield", 9, 20], ["potion", 2, 12], ["potion", 2, 12], ["rope", 1, 12], ["ring", 1, 6]] {
    try {
        print(`${offer[0]}: ${hero.buy(offer[0], offer[1], offer[2])}, gold ${hero.gold}`);
    } catch (problem) {
        print(problem);
    }
}
print(hero.drop("arrow", 8));
try { hero.drop("arrow", 3); } catch (problem) { print(problem); }
try { hero.drop("boat", 1); } catch (problem) { print(`${problem.held} ${problem.item}`); }
print(hero.drop("sword", 1));
print(hero.bag);
print(`${hero.weight()} of ${hero.limit}`);
