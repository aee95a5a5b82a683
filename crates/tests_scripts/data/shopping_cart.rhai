// a cart with discounts as rules, in cents
fn euros(cents) {
    let rest = (cents.abs() % 100).to_string();
    if rest.len() < 2 { rest = "0" + rest; }
    (if cents < 0 { "-" } else { "" }) + (cents.abs() / 100) + "." + rest
}

let cart = #{
    lines: [],
    add: |name, price, count| {
        let at = this.lines.index_of(|line| line.name == name);
        if at >= 0 { this.lines[at].count += count; } else { this.lines.push(#{ name: name, price: price, count: count }); }
    },
    sum: || this.lines.reduce(|total, line| total + line.price * line.count, 0),
    count: || this.lines.reduce(|total, line| total + line.count, 0)
};

let discounts = [
    #{ text: "three teas for two", rule: |cart| {
        let tea = cart.lines.find(|line| line.name == "tea");
        if tea == () { 0 } else { tea.count / 3 * tea.price }
    } },
    #{ text: "ten percent above 50", rule: |cart| if cart.sum() > 5000 { cart.sum() / 10 } else { 0 } },
    #{ text: "a gift for ten pieces", rule: |cart| if cart.count() >= 10 { 199 } else { 0 } }
];

fn bill(cart, discounts) {
    let total = cart.sum();
    print(`${cart.count()} pieces: ${euros(total)}`);
    for discount in discounts {
        let rule = discount.rule;
        let less = rule.call(cart);
        if less > 0 {
            print(`  ${discount.text}: ${euros(-less)}`);
            total -= less;
        }
    }
    print(`  to pay ${euros(total)}, tax ${euros(total * 19 / 119)}`);
}

bill(cart, discounts);
cart.add("tea", 349, 2);
cart.add("cup", 1205, 1);
bill(cart, discounts);
cart.add("tea", 349, 4);
cart.add("pot", 2999, 1);
bill(cart, discounts);
cart.add("spoon", 150, 6);
bill(cart, discounts);
print(cart.lines.map(|line| `${line.count} ${line.name}`));
