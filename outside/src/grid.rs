//! A grid is 81 bytes, row by row: `1` to `9` are givens, `0` and `.` blanks. This module holds
//! the keyer's check (refusals 11 and 12), the variables, the 27 houses, the givens as literals,
//! and the test for a legal completion.

use crate::refusal::{demand, demand_none, Refusal};
use std::array::from_fn;
use std::sync::LazyLock;

pub const CELLS: usize = 81;
pub const VARIABLES: usize = 729;

/// The nine cells of each house: rows, then columns, then boxes.
pub static HOUSES: LazyLock<[[usize; 9]; 27]> = LazyLock::new(|| {
    from_fn(|house| {
        let (kind, which) = (house / 9, house % 9);
        from_fn(|place| match kind {
            0 => 9 * which + place,
            1 => 9 * place + which,
            _ => 9 * (3 * (which / 3) + place / 3) + 3 * (which % 3) + place % 3,
        })
    })
});

/// The variable of digit z at row x, column y, all from 1 to 9.
pub fn variable(x: i16, y: i16, z: i16) -> i16 {
    81 * (x - 1) + 9 * (y - 1) + z
}

/// The variable of a digit byte at a cell numbered from 0.
pub fn variable_of(cell: usize, byte: u8) -> i16 {
    let (x, y) = (cell / 9 + 1, cell % 9 + 1);
    variable(x as i16, y as i16, i16::from(byte - b'0'))
}

pub fn is_given(byte: u8) -> bool {
    (b'1'..=b'9').contains(&byte)
}

/// Refusal 12 alone, over one grid or over the grids of a batch end to end.
pub fn check_bytes(bytes: &[u8]) -> Result<(), Refusal> {
    let meaningless = |&byte: &u8| !is_given(byte) && byte != b'0' && byte != b'.';
    demand_none(bytes.iter().position(meaningless), 12)
}

/// The keyer's check of one grid: 11, then 12.
pub fn check(grid: &[u8]) -> Result<(), Refusal> {
    demand(grid.len() == CELLS, 11)?;
    check_bytes(grid)
}

/// The givens of a grid as positive literals, in the order of the cells.
pub fn givens(grid: &[u8]) -> Vec<i16> {
    let cells = grid.iter().enumerate();
    cells
        .filter(|(_, &byte)| is_given(byte))
        .map(|(cell, &byte)| variable_of(cell, byte))
        .collect()
}

/// The completion test: whether the candidate has 81 bytes, keeps all givens of the grid and has
/// each digit once in each house. Refusals 11, 12.
pub fn is_completion(grid: &[u8], candidate: &[u8]) -> Result<bool, Refusal> {
    check(grid)?;
    if candidate.len() != CELLS {
        return Ok(false);
    }
    let keeps_givens =
        (0..CELLS).all(|cell| !is_given(grid[cell]) || candidate[cell] == grid[cell]);
    let has_once = |house: &[usize; 9], digit: u8| {
        house
            .iter()
            .filter(|&&cell| candidate[cell] == digit)
            .count()
            == 1
    };
    Ok(keeps_givens
        && HOUSES
            .iter()
            .all(|house| (b'1'..=b'9').all(|digit| has_once(house, digit))))
}
