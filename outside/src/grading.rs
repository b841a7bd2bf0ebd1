//! Grading: verdict 0 for no completion, 7 for several, else the first of the techniques 1 to 4
//! that solves, 5 if none does, 6 if trials run out. The ceiling bounds the sum of the trials of
//! techniques 3 and 4.

use crate::grid::{self, CELLS};
use crate::job::{run, Job, Outcome, TECHNIQUES};
use crate::order;
use crate::refusal::{demand, Refusal};
use crate::search::smallest_two;

#[derive(Clone, Copy, Debug, PartialEq, Eq)]
pub struct Grade {
    pub verdict: u8,
    pub trials: u32,
}

/// The call; the buffer gets the completion under verdicts 1 to 6, zero bytes under 0 and 7.
/// Refusals 42, 11, 12, 22, 23, 24.
pub fn grade(
    grid: &[u8],
    order: &[i16],
    ceiling: u32,
    completion: &mut [u8],
) -> Result<Grade, Refusal> {
    demand(completion.len() == CELLS, 42)?;
    grid::check(grid)?;
    order::check(order)?;
    let found = smallest_two(grid);
    if let [only] = found[..] {
        completion.copy_from_slice(&only);
        return Ok(by_techniques(grid, order, ceiling));
    }
    completion.fill(0);
    let verdict = if found.is_empty() { 0 } else { 7 };
    Ok(Grade { verdict, trials: 0 })
}

/// Verdicts 1 to 6, for a grid with one completion.
fn by_techniques(grid: &[u8], order: &[i16], ceiling: u32) -> Grade {
    let mut trials = 0;
    for (verdict, technique) in (1..).zip(TECHNIQUES) {
        let (Job { outcome, count }, _) = run(grid, technique, order, ceiling - trials);
        trials += count;
        match outcome {
            Outcome::Solved => return Grade { verdict, trials },
            Outcome::Stopped => return Grade { verdict: 6, trials },
            Outcome::Open | Outcome::Contradiction => {}
        }
    }
    Grade { verdict: 5, trials }
}
