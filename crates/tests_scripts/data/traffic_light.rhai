// a machine of states with actions, timers and a log
let machine = #{
    state: "red",
    waited: 0,
    log: [],
    states: #{
        red: #{ time: 3, next: "green" },
        green: #{ time: 2, next: "yellow" },
        yellow: #{ time: 1, next: "red" },
        blinking: #{ time: 1, next: "blinking" }
    },
    go_to: |state| {
        this.log.push(`${this.state}>${state}`);
        this.state = state;
        this.waited = 0;
    },
    tick: || {
        this.waited += 1;
        let rule = this.states[this.state];
        if this.waited >= rule.time && this.state != "blinking" { this.go_to(rule.next); }
    },
    signal: |event| {
        switch event {
            "break" if this.state != "blinking" => { this.go_to("blinking"); true }
            "repair" if this.state == "blinking" => { this.go_to("red"); true }
            "button" if this.state == "red" => { this.waited += 1; true }
            _ => false
        }
    }
};

let seen = "";
for second in 0..8 {
    machine.tick();
    seen += machine.state[0];
}
print(seen);
print(machine.log);
print(machine.signal("repair"));
print(machine.signal("break"));
machine.tick();
machine.tick();
print(`${machine.state} ${machine.waited}`);
print(machine.signal("button"));
print(machine.signal("repair"));
print(machine.signal("button"));
machine.tick();
machine.tick();
print(machine.state);
print(machine.log.len());
