//! The proved library through the package `grader`, as hosts in Rust call it, with the refusals and
//! the numbers of the reference.

use crate::refusal::Refusal;

pub use grader::raw::{clause as packed_clause, header, list_line};
pub use grader::LINE;

fn refused(refusal: grader::Refusal) -> Refusal {
    Refusal::at(refusal.cause.number(), refusal.place)
}

pub fn check_grid(grid: &[u8]) -> Result<(), Refusal> {
    grader::check_grid(grid).map_err(refused)
}

pub fn is_completion(grid: &[u8], candidate: &[u8]) -> Result<bool, Refusal> {
    grader::is_completion(grid, candidate).map_err(refused)
}

pub fn clause(set: u32, number: u32, literals: &mut [i16]) -> Result<u8, Refusal> {
    let length = grader::clause(set, number, literals).map_err(refused)?;
    Ok(length as u8)
}

/// The outcome's number and the count.
pub fn job(
    grid: &[u8],
    technique: u32,
    order: &[i16],
    ceiling: u32,
    marks: &mut [u8],
) -> Result<(u8, u32), Refusal> {
    let finished = grader::job(grid, technique, order, ceiling, marks).map_err(refused)?;
    Ok((finished.outcome.number(), finished.trials))
}

/// The number of completions found: 0, 1 or 2.
pub fn search(grid: &[u8], first: &mut [u8], second: &mut [u8]) -> Result<u8, Refusal> {
    let completions = grader::search(grid, first, second).map_err(refused)?;
    Ok(completions.number())
}

/// The verdict and the trial total.
pub fn grade(
    grid: &[u8],
    order: &[i16],
    ceiling: u32,
    completion: &mut [u8],
) -> Result<(u8, u32), Refusal> {
    let graded = grader::grade(grid, order, ceiling, completion).map_err(refused)?;
    Ok((graded.verdict.number(), graded.trials))
}

/// The marks and the answer list tell of the jobs.
pub fn batch(
    grids: &[u8],
    technique: u32,
    order: &[i16],
    ceiling: u32,
    marks: &mut [u8],
    answers: &mut [u32],
) -> Result<(), Refusal> {
    grader::batch(grids, technique, order, ceiling, marks, answers).map_err(refused)
}

/// The technique and the ceiling.
pub fn read_job_file(
    file: &[u8],
    grid: &mut [u8],
    order: &mut [i16],
) -> Result<(u8, u32), Refusal> {
    let read = grader::read_job_file(file, grid, order).map_err(refused)?;
    Ok((read.technique.number(), read.ceiling))
}
