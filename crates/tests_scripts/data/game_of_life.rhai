// Conway's game of life: a glider on a board that goes round
const SIZE = 6;

fn alive(board, row, column) {
    let size = board.len();
    board[(row + size) % size][(column + size) % size]
}

fn neighbours(board, row, column) {
    let count = 0;
    for down in -1..=1 {
        for across in -1..=1 {
            if down == 0 && across == 0 { continue; }
            count += alive(board, row + down, column + across);
        }
    }
    count
}

fn step(board) {
    let after = [];
    for (cells, row) in board {
        let line = [];
        for (cell, column) in cells {
            let count = neighbours(board, row, column);
            line.push(if count == 3 || (cell == 1 && count == 2) { 1 } else { 0 });
        }
        after.push(line);
    }
    after
}

fn show(board) {
    for cells in board {
        let line = "";
        for cell in cells { line += if cell == 1 { '#' } else { '.' }; }
        print(line);
    }
}

let board = [];
for row in 0..SIZE {
    let line = [];
    line.pad(SIZE, 0);
    board.push(line);
}
for place in [[0, 1], [1, 2], [2, 0], [2, 1], [2, 2]] { board[place[0]][place[1]] = 1; }

show(board);
let first = board;
for generation in 1..=4 { board = step(board); }
print("after 4:");
show(board);
let rounds = 4;
do { board = step(board); rounds += 1; } until board == first;
print(`as at first after ${rounds}`);
