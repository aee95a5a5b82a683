// tic-tac-toe: who has won, and the best move by looking ahead
const EMPTY = ' ';

fn lines() { [[0, 1, 2], [3, 4, 5], [6, 7, 8], [0, 3, 6], [1, 4, 7], [2, 5, 8], [0, 4, 8], [2, 4, 6]] }

fn winner(board) {
    for line in lines() {
        let first = board[line[0]];
        if first != ' ' && line.all(|at| board[at] == first) { return first; }
    }
    if board.contains(' ') { () } else { '-' }
}

fn other(player) { if player == 'X' { 'O' } else { 'X' } }

fn rate(board, player) {
    switch winner(board) {
        '-' => return 0,
        'X' | 'O' => return -1
    }
    let best = -1;
    for at in 0..9 {
        if board[at] != ' ' { continue; }
        board[at] = player;
        best = max(best, -rate(board, other(player)));
        board[at] = ' ';
        if best == 1 { break; }
    }
    best
}

fn best_move(board, player) {
    let best = -2;
    let move_to = ();
    for at in 0..9 {
        if board[at] != ' ' { continue; }
        let after = board;
        after[at] = player;
        let rating = -rate(after, other(player));
        if rating > best { best = rating; move_to = at; }
    }
    move_to
}

fn show(board) { for row in 0..3 { print(`${board[row * 3]}|${board[row * 3 + 1]}|${board[row * 3 + 2]}`); } }

let board = "X O  OX  ".to_chars();
print(board.filter(|place| place == EMPTY).len());
let player = 'X';
while winner(board) == () {
    let at = best_move(board, player);
    print(`${player} takes ${at}`);
    board[at] = player;
    player = other(player);
}
show(board);
print(`winner: ${winner(board)}`);
print(winner("XOXXOOOXX".to_chars()));
print(best_move("OO XX    ".to_chars(), 'X'));
