//! Complete search: none, one or several legal completions, and the smallest one or two of them in
//! byte order. It branches on the first open cell with its digits rising, so completions come in
//! byte order; the strikes at each node remove only digits that no completion below it has. A search
//! that takes long starts again and leaves at once the nodes that have no completion.

use crate::grid::{self, CELLS, HOUSES};
use crate::refusal::{demand, Refusal};

#[derive(Clone, Copy, Debug, PartialEq, Eq)]
pub enum Completions {
    None = 0,
    One = 1,
    Several = 2,
}

/// The call. Unused buffers get zero bytes. Refusals 42, 11, 12.
pub fn search(grid: &[u8], first: &mut [u8], second: &mut [u8]) -> Result<Completions, Refusal> {
    demand(first.len() == CELLS && second.len() == CELLS, 42)?;
    grid::check(grid)?;
    let found = smallest_two(grid);
    for (place, buffer) in [first, second].into_iter().enumerate() {
        match found.get(place) {
            Some(completion) => buffer.copy_from_slice(completion),
            None => buffer.fill(0),
        }
    }
    Ok(match found.len() {
        0 => Completions::None,
        1 => Completions::One,
        _ => Completions::Several,
    })
}

/// The smallest completions of a checked grid, at most two, in byte order.
pub fn smallest_two(grid: &[u8]) -> Vec<[u8; CELLS]> {
    let mut candidates = [ALL; CELLS];
    for (cell, &byte) in grid.iter().enumerate() {
        if grid::is_given(byte) {
            candidates[cell] = 1 << (byte - b'1');
        }
    }
    let mut search = Search::default();
    search.branch(candidates);
    if search.nodes > PLAIN_NODES {
        search = Search {
            looks_ahead: true,
            ..Search::default()
        };
        search.branch(candidates);
    }
    search.found
}

/// The digits that each cell may still hold, bit z−1 for digit z.
type Candidates = [u16; CELLS];

const ALL: u16 = 0x1ff;

/// Nodes after which a search gives up and starts again, looking ahead: where all completions fail
/// for cells far behind the first open one, it would find that out again and again.
const PLAIN_NODES: usize = 2_000;

#[derive(Default)]
struct Search {
    found: Vec<[u8; CELLS]>,
    nodes: usize,
    /// Nodes without a completion are left at once.
    looks_ahead: bool,
}

impl Search {
    fn branch(&mut self, mut candidates: Candidates) {
        self.nodes += 1;
        if self.looks_ahead {
            if !has_completion(candidates, &mut 0) {
                return;
            }
        } else if self.nodes > PLAIN_NODES {
            return;
        }
        if !strike(&mut candidates) {
            return;
        }
        match candidates.iter().position(|mask| mask.count_ones() > 1) {
            None => {
                let digits = candidates.map(|mask| b'1' + mask.trailing_zeros() as u8);
                self.found.push(digits);
            }
            Some(cell) => {
                for digit in 0..9 {
                    if candidates[cell] & 1 << digit != 0 && self.found.len() < 2 {
                        self.branch(settled(&candidates, cell, digit));
                    }
                }
            }
        }
    }
}

fn settled(candidates: &Candidates, cell: usize, digit: usize) -> Candidates {
    let mut below = *candidates;
    below[cell] = 1 << digit;
    below
}

/// Nodes after which the look ahead strikes by trials too.
const NODES_AHEAD: usize = 40_000;

/// Whether there is a completion. It branches on a cell with the fewest digits, and counts its nodes.
fn has_completion(mut candidates: Candidates, nodes: &mut usize) -> bool {
    *nodes += 1;
    if !strike(&mut candidates) || *nodes > NODES_AHEAD && !strike_by_trials(&mut candidates) {
        return false;
    }
    let open = (0..CELLS).filter(|&cell| candidates[cell].count_ones() > 1);
    let fewest = open.min_by_key(|&cell| candidates[cell].count_ones());
    fewest.is_none_or(|cell| {
        let mut digits = (0..9).filter(|digit| candidates[cell] & 1 << digit != 0);
        digits.any(|digit| has_completion(settled(&candidates, cell, digit), nodes))
    })
}

/// Once for each digit of each open cell: it leaves the cell if the strikes with it there fail. False
/// if the strikes without it fail too.
fn strike_by_trials(candidates: &mut Candidates) -> bool {
    for cell in 0..CELLS {
        for digit in 0..9 {
            let open = candidates[cell].count_ones() > 1 && candidates[cell] & 1 << digit != 0;
            if open && !strike(&mut settled(candidates, cell, digit)) {
                candidates[cell] &= !(1 << digit);
                if !strike(candidates) {
                    return false;
                }
            }
        }
    }
    true
}

/// Until nothing changes: a settled cell's digit leaves the rest of each of its houses, and a digit
/// with one place left in a house settles that cell. False if a cell has no digit left, or a house
/// no place for one; true with all cells settled means a legal completion.
fn strike(candidates: &mut Candidates) -> bool {
    loop {
        let before = *candidates;
        for house in HOUSES.iter() {
            for &cell in house {
                if candidates[cell].count_ones() == 1 {
                    for &other in house {
                        if other != cell {
                            candidates[other] &= !candidates[cell];
                        }
                    }
                }
            }
            for digit in 0..9 {
                let mut places = house
                    .iter()
                    .filter(|&&cell| candidates[cell] & 1 << digit != 0);
                match (places.next(), places.next()) {
                    (None, _) => return false,
                    (Some(&cell), None) => candidates[cell] = 1 << digit,
                    _ => {}
                }
            }
        }
        if candidates.contains(&0) {
            return false;
        }
        if *candidates == before {
            return true;
        }
    }
}
