// handlers of events as closures, which may be taken off again
let bus = #{
    handlers: #{},
    count: 0,
    on: |event, handler| {
        if event !in this.handlers { this.handlers[event] = []; }
        this.count += 1;
        this.handlers[event].push(#{ id: this.count, call_back: handler });
        this.count
    },
    off: |id| {
        for event in this.handlers.keys() {
            let list = this.handlers[event];
            list.retain(|entry| entry.id != id);
            this.handlers[event] = list;
        }
    },
    emit: |event, data| {
        let answered = 0;
        for entry in this.handlers[event] ?? [] {
            let handler = entry.call_back;
            handler.call(data);
            answered += 1;
        }
        answered
    }
};

let log = [];
let total = 0;
let greet = bus.on("login", |name| log.push(`hello ${name}`));
bus.on("login", |name| { if name == "root" { log.push("warning"); } });
bus.on("sale", |amount| total += amount);
bus.on("sale", |amount| log.push(`sold for ${amount}, now ${total}`));

print(bus.emit("login", "ann"));
print(bus.emit("login", "root"));
print(bus.emit("logout", "ann"));
bus.emit("sale", 40);
bus.emit("sale", 2);
bus.off(greet);
print(bus.emit("login", "bob"));
for line in log { print(line); }
print(total);
print(bus.handlers.keys());
print(bus.handlers.sale.map(|entry| entry.id));
