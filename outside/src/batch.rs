//! A batch: 1 to 64 grids end to end under one technique, one order and one ceiling for the sum of
//! their counts. Each grid's marks go into its own part of the lent buffer, its outcome and count
//! into two numbers of the answer list.

use crate::grid::{self, CELLS, VARIABLES};
use crate::job::{run, technique};
use crate::order;
use crate::refusal::{demand, Refusal};

pub const MOST_GRIDS: usize = 64;

/// The call. Refusals 47, 41, 48, 12, 21, 22, 23, 24.
pub fn batch(
    grids: &[u8],
    number: u32,
    order: &[i16],
    ceiling: u32,
    marks: &mut [u8],
    answers: &mut [u32],
) -> Result<(), Refusal> {
    let length = grids.len() / CELLS;
    let whole = grids.len() == length * CELLS && (1..=MOST_GRIDS).contains(&length);
    demand(whole, 47)?;
    demand(marks.len() == length * VARIABLES, 41)?;
    demand(answers.len() == 2 * length, 48)?;
    grid::check_bytes(grids)?;
    let technique = technique(number)?;
    order::check(order)?;

    let mut left = ceiling;
    let parts = marks.chunks_mut(VARIABLES).zip(answers.chunks_mut(2));
    for (grid, (marks, answer)) in grids.chunks(CELLS).zip(parts) {
        let (job, result) = run(grid, technique, order, left);
        left -= job.count;
        marks.copy_from_slice(&result);
        answer.copy_from_slice(&[job.outcome as u32, job.count]);
    }
    Ok(())
}
