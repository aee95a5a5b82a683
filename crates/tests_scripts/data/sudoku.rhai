// solves a sudoku by trying the place with the fewest choices
fn choices(board, row, column) {
    let free = [1, 2, 3, 4, 5, 6, 7, 8, 9];
    for at in 0..9 {
        free.retain(|digit| digit != board[row][at] && digit != board[at][column]);
    }
    let top = row / 3 * 3;
    let left = column / 3 * 3;
    for down in 0..3 { for across in 0..3 { free.retain(|digit| digit != board[top + down][left + across]); } }
    free
}

fn solve(board) {
    let best = ();
    for row in 0..9 {
        for column in 0..9 {
            if board[row][column] != 0 { continue; }
            let free = choices(board, row, column);
            if best == () || free.len() < best.free.len() { best = #{ row: row, column: column, free: free }; }
            if free.len() < 2 { break; }
        }
        if best != () && best.free.len() < 2 { break; }
    }
    if best == () { return board; }
    for digit in best.free {
        board[best.row][best.column] = digit;
        let solved = solve(board);
        if solved != () { return solved; }
    }
    ()
}

let puzzle = `
53..7....
6..195...
.98....6.
8..76...3
4..8.3..1
7..92...6
.6.5..28.
2..419..5
3...8..79`;
let board = puzzle.split().map(|line| line.to_chars().map(|letter| if letter == '.' { 0 } else { letter.to_int() - 48 }));
print(choices(board, 0, 2));
let solved = solve(board);
for row in solved { print(row.reduce(|text, digit| text + digit, "")); }
print(board[0]);
board[0][2] = 4;
board[0][3] = 9;
print(solve(board) == ());
