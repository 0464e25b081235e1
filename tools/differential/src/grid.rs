//! Part 7: the grid network, by three kinds of moves.

use crate::judge;

const ROOK: [(isize, isize); 4] = [(-1, 0), (0, -1), (0, 1), (1, 0)];
const BISHOP: [(isize, isize); 4] = [(-1, -1), (-1, 1), (1, -1), (1, 1)];
const QUEEN: [(isize, isize); 8] = [
    (-1, -1),
    (-1, 0),
    (-1, 1),
    (0, -1),
    (0, 1),
    (1, -1),
    (1, 0),
    (1, 1),
];

fn grid(rows: usize, columns: usize, moves: &[(isize, isize)], weights: &mut [u8]) -> u8 {
    let Some(n) = rows.checked_mul(columns).filter(|&n| judge::zones_fit(n)) else {
        return 1;
    };
    if weights.len() != n * n {
        return 2;
    }
    weights.fill(0);
    for (zone, near) in weights.chunks_exact_mut(n).enumerate() {
        let (row, column) = (zone / columns, zone % columns);
        for &(down, right) in moves {
            let to_row = row.checked_add_signed(down).filter(|&r| r < rows);
            let to_column = column.checked_add_signed(right).filter(|&c| c < columns);
            if let (Some(r), Some(c)) = (to_row, to_column) {
                near[r * columns + c] = 1;
            }
        }
    }
    0
}

pub fn grid_rook(rows: usize, columns: usize, weights: &mut [u8]) -> u8 {
    grid(rows, columns, &ROOK, weights)
}

pub fn grid_bishop(rows: usize, columns: usize, weights: &mut [u8]) -> u8 {
    grid(rows, columns, &BISHOP, weights)
}

pub fn grid_queen(rows: usize, columns: usize, weights: &mut [u8]) -> u8 {
    grid(rows, columns, &QUEEN, weights)
}
