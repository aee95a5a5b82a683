// The examples: a script, or lines of commands, and three sentences about each.
export const EXAMPLES = [
  {
    title: "A counter shared by two closures",
    about: "Both closures capture the variable count, so it moves into a cell that three holders share. Step on and watch the arrows appear when the first closure is made. A call of either closure then changes what the other one sees.",
    script: `let count = 0;
let up = || { count += 1; };
let down = || { count -= 1; };

up.call();
up.call();
down.call();
print(count);
`,
  },
  {
    title: "A value that holds itself",
    about: "The closure captures the map, so the map moves into a cell. The last statement puts the closure into that map: the cell now holds itself, and the arrow is a loop. Nothing else could free such a cell than a collection, which runs when a function is called.",
    script: `let node = #{ name: "first", next: () };
let look = || node.name;

print(look.call());
node.next = look;
print("the loop is closed");
`,
  },
  {
    title: "Shadowing, and what a closure kept",
    about: "A second let with the same name makes a new variable and hides the older one, which is drawn pale. At the end of a block its variables are gone, and the older ones are seen again. The closure keeps the variable that was in sight when it was made.",
    script: `let x = 1;
let see = || x;
{
    let x = "inner";
    let x = x + "most";
    print(x);
}
print(x);

let x = see.call() + 41;
print(x);
print(see.call());
`,
  },
  {
    title: "Copied or shared",
    about: "An array that is assigned is copied: the two variables have no cell in common. A closure shares what it captures instead of copying it. So the last two lines print different numbers of items.",
    script: `let list = [1, 2];
let copy = list;
let add = |item| list.push(item);

add.call(3);
copy.push("own");
add.call(4);

print(list.len());
print(copy.len());
`,
  },
  {
    title: "Bits and parts, written back",
    about: "An index into an int is one of its bits, and a range is a group of them. The int stands in an array in a map, and each write goes back through all of them. Look at the world after each statement.",
    script: `let device = #{ name: "lamp", ports: [0, 6] };

device.ports[0][3] = true;
device.ports[1][0] = true;
device.ports[1][4..=6] = 5;

let name = device.name;
name[0] = 'd';
device.name = name;
print(device);
`,
  },
  {
    title: "Sort with a callback",
    about: "Sorting calls the closure to compare two words, and the closure counts in a cell how often it was asked. Step into the call of sort to stand in the closure, or over it to see the result. Out leaves a comparison for the next statement of the script.",
    script: `let words = ["pear", "fig", "banana", "kiwi"];
let asked = 0;

words.sort(|a, b| {
    asked += 1;
    a.len() - b.len()
});

print(words);
print(asked);
`,
  },
  {
    title: "Calls in calls",
    about: "Each call of the function has variables of its own, and the innermost call is drawn first. Choose a call in the list to see its variables. A breakpoint on the line of the print stops once all calls are done.",
    script: `fn sum(list, from) {
    if from == list.len() {
        return 0;
    }
    let first = list[from];
    let rest = sum(list, from + 1);
    first + rest
}

let total = sum([4, 5, 6], 0);
print(total);
`,
  },
  {
    title: "One error caught, one not",
    about: "The first error is caught, and the variable has what the message says. The second one ends the run: its line and column are underlined, and the calls are listed. The world shows the values right before that.",
    script: `fn item(list, at) {
    list[at]
}

let list = [10, 20];
let why = "";
try {
    throw "no such luck";
} catch (e) {
    why = e;
}
print(why);
print(item(list, 1));
print(item(list, 2));
`,
  },
  {
    title: "Commands: a write to a marked cell",
    about: "These are commands of a world without scripts: a hand of values, and entries with names. A mark locks a cell, which is then read and written by the mark alone. So the write through the entry is refused, and done once the mark is gone.",
    lines: `int 7
share 0
push x 0
get x
int 5

mark @x
assign @x += 2
readmarked 0
show 3
unmark 0
assign @x += 2
show 1
`,
  },
  {
    title: "Commands: shadowing and rewind",
    about: "Two entries have the name n, and a name means its last entry. The write in place changes bits of that entry alone. Rewind drops the newer entries, and the older one is found again.",
    lines: `int 1
push n 0
int 6
push n 1
int 1
assign @n += 2
bool true
bit @n 4 3
showscope
len
rewind 1
get n
show 4
`,
  },
];
