//! The search and the grading call by the steps of the proved ones, in plain Rust: the bench times
//! the proved calls beside them, and `hunt` looks for grids that cost the search most. The search
//! counts the grids that may fit the grid's boards. Then it branches on the first open cell with its
//! digits rising, so completions come in byte order; a cell with one digit left gets it. Where the
//! count has left one grid, that has all the digits; else a branch is entered unless its boards show
//! that it leaves nothing. Where so many branches are entered, the search begins anew, and passes over
//! those too that a count finds to leave nothing.

use crate::boards::{bits, Boards, Place};
use crate::cases::Grid;
use crate::counting::{Count, Stop};
use crate::grid::{self, is_given, CELLS, HOUSES, VARIABLES};
use crate::plain_job::{check_order, run};
use crate::refusal::{demand, Refusal};

/// The smallest completions, at most two, and what finding them took.
pub struct Search {
    pub found: Vec<Grid>,
    pub count: Count,
    /// The one grid that may complete the grid, where so much is known.
    only: Option<Grid>,
    /// How many branches are still entered without a count, until all are counted.
    untested: Option<usize>,
}

/// How many branches are entered at first: of many completions two are soon found.
const UNTESTED: usize = 100;

impl Search {
    /// The search of a checked grid. It enters no further branch once it has taken so many nodes.
    pub fn within(grid: &Grid, most: usize) -> Search {
        let boards = Boards::of(grid);
        let mut search = Search {
            found: Vec::new(),
            count: Count::new(most),
            only: None,
            untested: Some(UNTESTED),
        };
        search.only = match search.count.attempts(&boards, false) {
            Ok(None) => return search,
            Ok(only) => only,
            Err(Stop) => None,
        };
        if search.explore(grid, &boards, 0).is_err() {
            search.found.clear();
            search.untested = None;
            let _ = search.explore(grid, &boards, 0);
        }
        search
    }

    /// All completions of a grid, after those found before, until there are two. No cell before `from`
    /// is open.
    fn explore(&mut self, grid: &Grid, boards: &Boards, from: usize) -> Result<(), Stop> {
        let mut filled = *grid;
        let Some((open, digits)) = self.fill(&mut filled, boards, from) else {
            if is_solved(&filled) {
                self.found.push(filled);
            }
            return Ok(());
        };
        let (band, cell) = (open / 27, open % 27);
        for digit in bits(digits) {
            filled[open] = b'1' + digit as u8;
            self.count.nodes += 1;
            let mut next = *boards;
            next.place(Place { digit, band, cell });
            if next.settle().is_ok() && self.enters(&next, open, filled[open])? {
                self.explore(&filled, &next, open + 1)?;
                if self.found.len() == 2 {
                    break;
                }
            }
        }
        Ok(())
    }

    /// Gives open cells with one digit left that digit, up to the first with none or with more, which
    /// it tells with its digits.
    fn fill(&self, grid: &mut Grid, boards: &Boards, from: usize) -> Option<(usize, u32)> {
        for cell in from..CELLS {
            if !is_given(grid[cell]) {
                let digits = match &self.only {
                    Some(only) => 1 << (only[cell] - b'1'),
                    None => boards.digits_at(cell / 27, cell % 27),
                };
                if !digits.is_power_of_two() {
                    return Some((cell, digits));
                }
                grid[cell] = b'1' + digits.trailing_zeros() as u8;
            }
        }
        None
    }

    /// Whether a branch is entered, by its boards and the digit that it gives a cell. The grid that was
    /// counted last shows of its own digits that they leave something.
    fn enters(&mut self, boards: &Boards, cell: usize, digit: u8) -> Result<bool, Stop> {
        match &mut self.untested {
            Some(0) => Err(Stop),
            Some(left) => {
                *left -= 1;
                Ok(true)
            }
            None if self.count.nodes >= self.count.most => Err(Stop),
            None if self.count.guess[cell] == digit => Ok(true),
            None => Ok(!matches!(self.count.attempts(boards, true), Ok(None))),
        }
    }
}

/// Whether each house of a full grid has all nine digits.
fn is_solved(grid: &Grid) -> bool {
    HOUSES.iter().all(|house| {
        let digits = house.iter().map(|&cell| 1 << (grid[cell] - b'1'));
        digits.fold(0u32, |all, digit| all | digit) == 511
    })
}

/// The smallest completions of a checked grid, at most two, in byte order.
pub fn smallest_two(grid: &Grid) -> Vec<Grid> {
    Search::within(grid, usize::MAX).found
}

/// The same answers, buffers and refusals as the search call.
pub fn search(grid: &[u8], first: &mut [u8], second: &mut [u8]) -> Result<u8, Refusal> {
    demand(first.len() == CELLS && second.len() == CELLS, 42)?;
    let found = smallest_two(checked(grid)?);
    for (place, buffer) in [first, second].into_iter().enumerate() {
        buffer.copy_from_slice(found.get(place).unwrap_or(&[0; CELLS]));
    }
    Ok(found.len() as u8)
}

fn checked(grid: &[u8]) -> Result<&Grid, Refusal> {
    grid::check(grid)?;
    grid.try_into().map_err(|_| Refusal::new(11))
}

/// The same verdicts, totals, buffers and refusals as the grading call.
pub fn grade(
    grid: &[u8],
    order: &[i16],
    ceiling: u32,
    completion: &mut [u8],
) -> Result<(u8, u32), Refusal> {
    demand(completion.len() == CELLS, 42)?;
    let grid = checked(grid)?;
    check_order(order)?;
    let found = smallest_two(grid);
    let [only] = found[..] else {
        completion.fill(0);
        return Ok((if found.is_empty() { 0 } else { 7 }, 0));
    };
    completion.copy_from_slice(&only);
    Ok(by_techniques(grid, order, ceiling, &marks_of(&only)))
}

/// Verdicts 1 to 6, with the trials that they take. All literals of the completion are sure to
/// succeed: they contradict no state that is reached from the givens.
fn by_techniques(
    grid: &[u8],
    order: &[i16],
    ceiling: u32,
    completion: &[u8; VARIABLES],
) -> (u8, u32) {
    let mut trials = 0;
    for technique in 1..=4 {
        let left = ceiling - trials;
        let marks = &mut [0; VARIABLES];
        let (outcome, count) = run(grid, technique, order, left, completion, marks);
        trials += count;
        match outcome {
            1 => return (technique as u8, trials),
            3 => return (6, trials),
            _ => {}
        }
    }
    (5, trials)
}

/// The marks of a full grid.
fn marks_of(full: &Grid) -> [u8; VARIABLES] {
    let digit = |place| usize::from(full[place / 9] - b'1');
    std::array::from_fn(|place| if place % 9 == digit(place) { 1 } else { 2 })
}
