// the state of a small adventure, and a list of commands
let world = #{
    hall: #{ text: "a cold hall", exits: #{ north: "library", east: "cellar" }, items: ["lamp"] },
    library: #{ text: "dusty books", exits: #{ south: "hall" }, items: ["key", "book"] },
    cellar: #{ text: "a locked chest", exits: #{ west: "hall" }, items: [] }
};
let player = #{ room: "hall", bag: [], moves: 0 };

fn walk(world, direction) {
    let target = world[this.room].exits[direction];
    if target == () { return `no way ${direction}`; }
    this.room = target;
    this.moves += 1;
    world[target].text
}

fn take_from(room, item) {
    let at = room.items.index_of(item);
    if at < 0 { return `no ${item} here`; }
    this.bag.push(item);
    `you take the ${item}`
}

fn open_chest() {
    switch this.room {
        "cellar" if "key" in this.bag => { this.bag.push("gold"); "you find gold" }
        "cellar" => "it is locked",
        _ => "there is no chest"
    }
}

let commands = "go west;take lamp;open;go east;open;go west;go north;take key;take lamp;go south;go east;open";
for command in commands.split(';') {
    let words = command.split();
    let answer = switch words[0] {
        "go" => player.walk(world, words[1]),
        "take" => {
            let answer = player.take_from(world[player.room], words[1]);
            world[player.room].items.retain(|item| item != words[1]);
            answer
        }
        "open" => player.open_chest(),
        _ => "what?"
    };
    print(`> ${command}: ${answer}`);
}
print(player);
print(world.library.items);
