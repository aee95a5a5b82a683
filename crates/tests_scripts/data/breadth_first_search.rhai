// shortest ways in a maze, by a queue
let maze = [
    "S.#.....",
    "..#.###.",
    ".##.#...",
    "....#.#E",
    ".##...#."
];

fn find_letter(maze, letter) {
    for (line, row) in maze {
        let column = line.index_of(letter);
        if column >= 0 { return [row, column]; }
    }
    ()
}

fn search(maze, start, target) {
    let queue = [start];
    let came_from = #{};
    came_from[start.to_string()] = start;
    let seen = 0;
    while !queue.is_empty() {
        let place = queue.shift();
        seen += 1;
        if place == target {
            let way = [place];
            while way[0] != start { way.insert(0, came_from[way[0].to_string()]); }
            return #{ way: way, seen: seen };
        }
        for step in [[-1, 0], [0, 1], [1, 0], [0, -1]] {
            let row = place[0] + step[0];
            let column = place[1] + step[1];
            if row !in 0..maze.len() || column !in 0..maze[0].len() || maze[row][column] == '#' { continue; }
            let key = [row, column].to_string();
            if key in came_from { continue; }
            came_from[key] = place;
            queue.push([row, column]);
        }
    }
    #{ way: (), seen: seen }
}

let start = find_letter(maze, "S");
let target = find_letter(maze, 'E');
let found = search(maze, start, target);
print(`${start} to ${target}: ${found.way.len() - 1} steps`);
for place in found.way.extract(1, found.way.len() - 2) { maze[place[0]][place[1]] = '*'; }
for line in maze { print(line); }
maze[4][3] = '#';
maze[2][3] = '#';
print(search(maze, start, target).way == ());
