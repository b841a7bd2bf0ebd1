//! A plain program of bit masks that goes by cells: the bench times the proved search beside it too, to
//! show what boards by digit gain. It knows which digits each house still lacks. A cell with one digit
//! left gets it, and so does the only cell of a house that a digit may stand in; then it branches on
//! the cell with the fewest digits. So it counts completions to two. Where there are several it starts
//! again and branches on the first open cell, for the smallest two in byte order.

use crate::boards::bits;
use crate::cases::Grid;
use crate::grid::{is_given, CELLS};

/// The row, the column and the box of each cell, of the 27 houses.
const HOUSES_OF: [[usize; 3]; CELLS] = {
    let (mut houses, mut cell) = ([[0; 3]; CELLS], 0);
    while cell < CELLS {
        let (row, column) = (cell / 9, cell % 9);
        houses[cell] = [row, 9 + column, 18 + 3 * (row / 3) + column / 3];
        cell += 1;
    }
    houses
};

#[derive(Clone, Copy)]
struct State {
    grid: Grid,
    /// The digits that each house lacks, a bit for each.
    lacks: [u16; 27],
    /// The cells with no digit, in three words of 27.
    open: [u32; 3],
}

/// The smallest completions of a checked grid, at most two, in byte order.
pub fn smallest_two(grid: &Grid) -> Vec<Grid> {
    let mut state = State {
        grid: *grid,
        lacks: [511; 27],
        open: [(1 << 27) - 1; 3],
    };
    let mut found = Vec::new();
    for (cell, &byte) in grid.iter().enumerate() {
        if is_given(byte) {
            let digit = 1 << (byte - b'1');
            if state.left(cell) & digit == 0 {
                return found;
            }
            state.put(cell, digit);
        }
    }
    branch(state, false, &mut found);
    if found.len() == 2 {
        found.clear();
        branch(state, true, &mut found);
    }
    found
}

impl State {
    /// The digits left in an open cell.
    #[inline(always)]
    fn left(&self, cell: usize) -> u16 {
        let [row, column, of_box] = HOUSES_OF[cell];
        self.lacks[row] & self.lacks[column] & self.lacks[of_box]
    }

    fn put(&mut self, cell: usize, digit: u16) {
        self.grid[cell] = b'1' + digit.trailing_zeros() as u8;
        self.open[cell / 27] &= !(1 << (cell % 27));
        for house in HOUSES_OF[cell] {
            self.lacks[house] &= !digit;
        }
    }

    #[inline(always)]
    fn open_cells(&self) -> impl Iterator<Item = usize> {
        let words = self.open.into_iter().enumerate();
        words.flat_map(|(band, word)| bits(word).map(move |cell| 27 * band + cell))
    }

    /// Fills in what can stand in one place only; false where a cell has no digit left, or a house no
    /// cell for one.
    fn settle(&mut self) -> bool {
        loop {
            // the digits with a cell in each house, and with two
            let (mut once, mut twice) = ([0; 27], [0; 27]);
            let mut more = false;
            for cell in self.open_cells() {
                let left = self.left(cell);
                if left == 0 {
                    return false;
                }
                if left.is_power_of_two() {
                    self.put(cell, left);
                    more = true;
                    continue;
                }
                for house in HOUSES_OF[cell] {
                    twice[house] |= once[house] & left;
                    once[house] |= left;
                }
            }
            if more {
                continue;
            }
            for cell in self.open_cells() {
                let left = self.left(cell);
                let houses = HOUSES_OF[cell].iter();
                let alone = houses.fold(0, |alone, &house| alone | once[house] & !twice[house]);
                let alone = alone & left;
                if alone != 0 {
                    if !alone.is_power_of_two() {
                        return false;
                    }
                    self.put(cell, alone);
                    more = true;
                }
            }
            if !more {
                return self.lacks == once;
            }
        }
    }
}

/// Adds the completions of a state to those that are found, until there are two.
fn branch(mut state: State, in_order: bool, found: &mut Vec<Grid>) {
    if !state.settle() {
        return;
    }
    let mut cells = state.open_cells();
    let cell = if in_order {
        cells.next()
    } else {
        cells.min_by_key(|&cell| state.left(cell).count_ones())
    };
    let Some(cell) = cell else {
        found.push(state.grid);
        return;
    };
    for digit in bits(state.left(cell).into()) {
        if found.len() < 2 {
            let mut next = state;
            next.put(cell, 1 << digit);
            branch(next, in_order, found);
        }
    }
}
