//! A clause set with a grid's givens as DIMACS CNF, for public solvers, and their models read back
//! as grids. The clauses stand in number order, then come one unit clause a given and any clauses
//! that the caller adds.

use crate::clauses::clause_set;
use crate::grid::{self, variable_of, CELLS, VARIABLES};
use crate::refusal::Refusal;
use std::fmt::Write;

/// The text of the formula. Refusals 43, 11, 12.
pub fn write(set: u32, grid: &[u8], added: &[Vec<i16>]) -> Result<String, Refusal> {
    let clauses = clause_set(set)?;
    grid::check(grid)?;
    let givens = grid::givens(grid);

    let total = clauses.len() + givens.len() + added.len();
    let mut text = format!("p cnf {VARIABLES} {total}\n");
    let of_set = clauses.iter().map(|clause| clause.literals());
    let of_grid = givens.chunks(1);
    for literals in of_set.chain(of_grid).chain(added.iter().map(Vec::as_slice)) {
        for literal in literals {
            write!(text, "{literal} ").expect("a string takes all text");
        }
        text.push_str("0\n");
    }
    Ok(text)
}

/// The clause that rules out one completion and no other.
pub fn blocking(completion: &[u8]) -> Vec<i16> {
    let cells = completion.iter().enumerate();
    cells
        .map(|(cell, &byte)| -variable_of(cell, byte))
        .collect()
}

/// The grid of a model, given as literals on bare lines or on lines that start with `v`. None if a
/// variable is missing or repeated, or if a cell has not exactly one digit.
pub fn read_model(text: &str) -> Option<[u8; CELLS]> {
    let mut seen = [false; VARIABLES];
    let mut model = [0; CELLS];
    let words = text.lines().filter_map(|line| {
        let values = line.strip_prefix('v').unwrap_or(line);
        let is_values = values.starts_with([' ', '-']) || values.starts_with(char::is_numeric);
        is_values.then_some(values.split_whitespace())
    });
    for word in words.flatten() {
        let literal: i16 = word.parse().ok()?;
        if literal == 0 {
            break;
        }
        let index = usize::from(literal.unsigned_abs()) - 1;
        let cell = index / 9;
        if std::mem::replace(seen.get_mut(index)?, true) {
            return None;
        }
        if literal > 0 {
            if model[cell] != 0 {
                return None;
            }
            model[cell] = b'1' + (index % 9) as u8;
        }
    }
    (seen.iter().all(|&seen| seen) && !model.contains(&0)).then_some(model)
}
