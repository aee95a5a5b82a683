// functions of maps that take functions
let stock = #{ apple: 5, banana: 0, cherry: 40, date: 12, elder: 0 };
print(stock.filter(|name, count| count > 10));
print(stock.filter(|name| name.len() > 4));
print(stock.filter(|name| this == 0).keys());
print(stock.len());

let sold_out = stock.drain(|name, count| count == 0);
print(sold_out);
print(stock);
let dropped = stock.retain(|name, count| name < "d");
print(`${dropped} dropped, ${stock} kept`);

fn is_cheap(name, price) { price < 3 }
let prices = #{ tea: 2, coffee: 4, water: 1 };
print(prices.filter(Fn("is_cheap")));
let limit = 2;
print(prices.filter(|name, price| price >= limit).values());

let total = 0;
for name in prices.keys() { total += prices[name]; }
print(total);
let doubled = #{};
prices.keys().for_each(|at| doubled[this] = prices[this] * 2 + at);
print(doubled);

let by_price = prices.keys();
by_price.sort(|left, right| prices[right] - prices[left]);
print(by_price);
let inverse = prices.keys().reduce(|made, name| { made[prices[name].to_string()] = name; made }, #{});
print(inverse);
print(prices.values().zip(prices.keys(), |price, name| `${name}=${price}`));
print(prices.keys().all(|name| prices[name] > 0));
print(prices.keys().find(|name| prices[name] == 1));
