// an account as an object: a map whose fields are functions over `this`
fn open_account(owner, start) {
    #{
        owner: owner,
        balance: start,
        history: [],
        deposit: |amount| {
            if amount <= 0 { throw `can't deposit ${amount}`; }
            this.balance += amount;
            this.history.push(`+${amount}`);
            this.balance
        },
        withdraw: |amount| {
            if amount > this.balance {
                throw #{ code: "poor", missing: amount - this.balance };
            }
            this.balance -= amount;
            this.history.push(`-${amount}`);
            this.balance
        },
        describe: || `${this.owner} has ${this.balance}`
    }
}

fn transfer(from, amount) {
    // a copy comes in, and a copy goes out
    from.withdraw(amount);
    this.deposit(amount);
    from
}

let ann = open_account("Ann", 100);
let bob = open_account("Bob", 20);
print(ann.deposit(50));
print(ann.withdraw(30));
try {
    bob.withdraw(75);
} catch (problem) {
    print(`${problem.code}: ${problem.missing} missing`);
}
try {
    bob.deposit(-5);
} catch (problem) {
    print(problem);
}
print(bob.describe());
ann = bob.transfer(ann, 90);
print(ann.describe());
print(bob.describe());
print(ann.history);
print(bob.history);
let accounts = [ann, bob];
accounts[1].deposit(1);
print(accounts.map(|account| account.balance));
print(bob.balance);
