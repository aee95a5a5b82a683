// a machine that sells, gives change and runs out of coins
let machine = #{
    coins: #{ c200: 0, c100: 1, c50: 2, c20: 2, c10: 1 },
    goods: #{ tea: #{ price: 120, left: 2 }, nut: #{ price: 80, left: 1 } },
    paid: 0,
    insert_coin: |value| {
        let key = `c${value}`;
        if key !in this.coins { return `${value} falls through`; }
        this.coins[key] += 1;
        this.paid += value;
        `${this.paid} paid`
    },
    change: |sum| {
        let given = [];
        let coins = this.coins;
        for value in [200, 100, 50, 20, 10] {
            let key = `c${value}`;
            while sum >= value && coins[key] > 0 {
                coins[key] -= 1;
                sum -= value;
                given.push(value);
            }
        }
        if sum > 0 { throw "no change"; }
        this.coins = coins;
        this.paid = 0;
        given
    },
    choose: |name| {
        let item = this.goods[name] ?? { throw `no ${name} here` };
        if item.left == 0 { throw `${name} is sold out`; }
        if this.paid < item.price { throw `${item.price - this.paid} missing`; }
        let given = this.change(this.paid - item.price);
        this.goods[name].left -= 1;
        `${name}, change ${given}`
    }
};

let actions = [100, "tea", 50, "tea", 5, 100, "nut", 200, "nut", "tea", "back", 20, "cup", 20, 50, 50, "tea", "back"];
for action in actions {
    let answer = ();
    try {
        answer = switch type_of(action) {
            "i64" => machine.insert_coin(action),
            "string" if action == "back" => `back ${machine.change(machine.paid)}`,
            _ => machine.choose(action)
        };
    } catch (problem) {
        answer = problem;
    }
    print(`${action}: ${answer}`);
}
print(machine.coins);
print(machine.goods.values().map(|item| item.left));
