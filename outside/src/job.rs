//! A job: the unit closure of the givens over the technique's clause set, then, under techniques
//! 3 and 4, trials along the order in passes until a pass has no failure. The count of trials is
//! bounded by the ceiling, and the marks are the state, or all 0 after a contradiction.

use crate::clauses::clause_set;
use crate::closure::{close, unsatisfied, Contradiction, Marks, State, UNDECIDED};
use crate::grid::{self, VARIABLES};
use crate::order;
use crate::refusal::{demand, Refusal};

/// No count of one job passes this; it is also the ceiling where none is given.
pub const HIGHEST_COUNT: u32 = 729 * 1458;

#[derive(Clone, Copy, Debug, PartialEq, Eq)]
pub struct Technique {
    pub set: u32,
    pub trials: bool,
}

/// Techniques 1 to 4.
pub const TECHNIQUES: [Technique; 4] = [
    Technique {
        set: 1,
        trials: false,
    },
    Technique {
        set: 2,
        trials: false,
    },
    Technique {
        set: 1,
        trials: true,
    },
    Technique {
        set: 2,
        trials: true,
    },
];

#[derive(Clone, Copy, Debug, PartialEq, Eq)]
pub enum Outcome {
    Solved = 1,
    Open = 2,
    Stopped = 3,
    Contradiction = 4,
}

#[derive(Clone, Copy, Debug, PartialEq, Eq)]
pub struct Job {
    pub outcome: Outcome,
    pub count: u32,
}

/// The technique of a number; refusal 21 for any but 1 to 4.
pub fn technique(number: u32) -> Result<Technique, Refusal> {
    demand((1..=4).contains(&number), 21)?;
    Ok(TECHNIQUES[number as usize - 1])
}

/// The call. Refusals 41, 11, 12, 21, 22, 23, 24.
pub fn job(
    grid: &[u8],
    number: u32,
    order: &[i16],
    ceiling: u32,
    marks: &mut [u8],
) -> Result<Job, Refusal> {
    demand(marks.len() == VARIABLES, 41)?;
    grid::check(grid)?;
    let technique = technique(number)?;
    order::check(order)?;
    let (job, result) = run(grid, technique, order, ceiling);
    marks.copy_from_slice(&result);
    Ok(job)
}

/// The job of a checked input, with its marks.
pub fn run(grid: &[u8], technique: Technique, order: &[i16], ceiling: u32) -> (Job, Marks) {
    let mut state = State::of(&grid::givens(grid));
    let mut count = 0;
    match infer(technique, order, ceiling, &mut state, &mut count) {
        Ok(outcome) => (Job { outcome, count }, state.marks),
        Err(Contradiction) => {
            let outcome = Outcome::Contradiction;
            (Job { outcome, count }, [UNDECIDED; VARIABLES])
        }
    }
}

fn infer(
    technique: Technique,
    order: &[i16],
    ceiling: u32,
    state: &mut State,
    count: &mut u32,
) -> Result<Outcome, Contradiction> {
    let clauses = clause_set(technique.set).expect("a technique's set is 1 or 2");
    close(clauses, state)?;
    if state.all_decided() {
        return Ok(Outcome::Solved);
    }
    if !technique.trials {
        return Ok(Outcome::Open);
    }
    let mut clauses = unsatisfied(clauses, state);
    loop {
        let mut failure = false;
        for &literal in order {
            if state.decides(literal) {
                continue;
            }
            if *count == ceiling {
                return Ok(Outcome::Stopped);
            }
            *count += 1;
            let mut trial = state.clone();
            trial.join(literal);
            if close(&clauses, &mut trial) == Err(Contradiction) {
                failure = true;
                state.join(-literal);
                close(&clauses, state)?;
                if state.all_decided() {
                    return Ok(Outcome::Solved);
                }
                clauses = unsatisfied(&clauses, state);
            }
        }
        if !failure {
            return Ok(Outcome::Open);
        }
    }
}
