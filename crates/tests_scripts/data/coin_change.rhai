// in how many ways, and by how few coins, a sum is paid
fn ways(coins, sum) {
    let table = [1];
    table.pad(sum + 1, 0);
    for coin in coins {
        for at in coin..=sum { table[at] += table[at - coin]; }
    }
    table[sum]
}

fn fewest(coins, sum) {
    let best = [[]];
    for at in 1..=sum {
        let found = ();
        for coin in coins {
            let rest = if coin <= at { best[at - coin] } else { () };
            if rest != () && (found == () || rest.len() + 1 < found.len()) { found = rest + [coin]; }
        }
        best.push(found);
    }
    best[sum]
}

fn greedy(coins, sum) {
    let paid = [];
    let at = coins.len() - 1;
    while at >= 0 {
        while coins[at] <= sum {
            paid.push(coins[at]);
            sum -= coins[at];
        }
        at -= 1;
    }
    if sum == 0 { paid } else { () }
}

let euro = [1, 2, 5, 10, 20, 50, 100, 200];
print(ways([1, 2, 5], 5));
print(ways(euro, 100));
print(ways([2], 3));
for sum in [0, 6, 30] {
    let few = fewest([1, 3, 4, 25], sum);
    few.sort();
    print(`${sum}: ${few} against ${greedy([1, 3, 4, 25], sum)}`);
}
print(fewest([5, 7], 13) == ());
print(fewest([5, 7], 24).len());
print(greedy(euro, 388));
print(greedy([4, 9], 12) ?? "greed fails");
