//! The job call by a simple loop: the bench times the proved call beside it too, so that it shows what
//! the sums, the list and the known successes of [`crate::plain_job`] gain. A place is a variable less
//! one. Decided places go on a trail, on which they wait to be looked at, with all places of their
//! groups; the four groups of a place are found by arithmetic. Every trial is made.

use crate::grid;
use crate::plain_job::check_order;
use crate::refusal::{demand, Refusal};

/// The marks with the number decided.
#[derive(Clone, Copy)]
struct State {
    marks: [u8; 729],
    decided: usize,
}

/// The groups of a place: its cell, its row, its column and its box, the last three for its digit.
#[derive(Clone, Copy)]
enum Kind {
    Cell,
    Row,
    Column,
    Box,
}

/// The first place of the group.
#[inline(always)]
fn base(kind: Kind, p: usize) -> usize {
    match kind {
        Kind::Cell => 9 * (p / 9),
        Kind::Row => 81 * (p / 81) + p % 9,
        Kind::Column => p % 81,
        Kind::Box => 243 * (p / 243) + 27 * (p / 27 % 3) + p % 9,
    }
}

#[inline(always)]
fn offset(kind: Kind, k: usize) -> usize {
    match kind {
        Kind::Cell => k,
        Kind::Row => 9 * k,
        Kind::Column => 81 * k,
        Kind::Box => 81 * (k / 3) + 9 * (k % 3),
    }
}

/// The trail, with the number of places on it.
struct Work {
    trail: [u16; 729],
    tail: usize,
}

impl Work {
    #[inline(always)]
    fn assign(&mut self, marks: &mut [u8; 729], p: usize, mark: u8) {
        marks[p] = mark;
        self.trail[self.tail] = p as u16;
        self.tail += 1;
    }

    /// A true place strikes the other eight of a group.
    #[inline(always)]
    fn strike(&mut self, marks: &mut [u8; 729], kind: Kind, p: usize) -> bool {
        let first = base(kind, p);
        for k in 0..9 {
            let q = first + offset(kind, k);
            if q != p {
                if marks[q] == 1 {
                    return false;
                }
                if marks[q] == 0 {
                    self.assign(marks, q, 2);
                }
            }
        }
        true
    }

    /// A group with no true place and one undecided makes it true; with none it is a contradiction.
    #[inline(always)]
    fn last(&mut self, marks: &mut [u8; 729], kind: Kind, p: usize) -> bool {
        let first = base(kind, p);
        let mut open = None;
        for k in 0..9 {
            let q = first + offset(kind, k);
            if marks[q] == 1 || marks[q] == 0 && open.is_some() {
                return true;
            }
            if marks[q] == 0 {
                open = Some(q);
            }
        }
        if let Some(q) = open {
            self.assign(marks, q, 1);
        }
        open.is_some()
    }

    fn visit(&mut self, marks: &mut [u8; 729], extended: bool, p: usize) -> bool {
        if marks[p] == 1 {
            self.strike(marks, Kind::Row, p)
                && self.strike(marks, Kind::Column, p)
                && self.strike(marks, Kind::Box, p)
                && (!extended || self.strike(marks, Kind::Cell, p))
        } else {
            (!extended
                || self.last(marks, Kind::Row, p)
                    && self.last(marks, Kind::Column, p)
                    && self.last(marks, Kind::Box, p))
                && self.last(marks, Kind::Cell, p)
        }
    }

    /// The unit closure of marks of which all places before the trail are looked at.
    fn propagate(&mut self, marks: &mut [u8; 729], extended: bool) -> bool {
        let mut head = 0;
        while head < self.tail {
            if !self.visit(marks, extended, usize::from(self.trail[head])) {
                return false;
            }
            head += 1;
        }
        true
    }
}

/// The unit closure of a grid's givens, or None for a contradiction.
fn closed_givens(grid: &[u8], extended: bool) -> Option<State> {
    let mut state = State {
        marks: [0; 729],
        decided: 0,
    };
    let mut work = Work {
        trail: [0; 729],
        tail: 0,
    };
    for (cell, &byte) in grid.iter().enumerate() {
        if grid::is_given(byte) {
            work.assign(&mut state.marks, 9 * cell + usize::from(byte - b'1'), 1);
        }
    }
    if !work.propagate(&mut state.marks, extended) {
        return None;
    }
    state.decided = work.tail;
    Some(state)
}

/// The unit closure of a closed state with one literal more, or None for a contradiction.
fn closed_with(state: &State, extended: bool, literal: i16) -> Option<State> {
    let mut next = *state;
    let mut work = Work {
        trail: [0; 729],
        tail: 0,
    };
    let mark = if literal > 0 { 1 } else { 2 };
    work.assign(
        &mut next.marks,
        usize::from(literal.unsigned_abs()) - 1,
        mark,
    );
    if !work.propagate(&mut next.marks, extended) {
        return None;
    }
    next.decided += work.tail;
    Some(next)
}

/// The same outcomes, counts, marks and refusals as the job call.
pub fn job(
    grid: &[u8],
    technique: u32,
    order: &[i16],
    ceiling: u32,
    marks: &mut [u8],
) -> Result<(u8, u32), Refusal> {
    let marks = <&mut [u8; 729]>::try_from(marks).map_err(|_| Refusal::new(41))?;
    grid::check(grid)?;
    demand((1..=4).contains(&technique), 21)?;
    check_order(order)?;
    Ok(run(grid, technique, order, ceiling, marks))
}

/// Outcome, count and marks of a checked job.
fn run(
    grid: &[u8],
    technique: u32,
    order: &[i16],
    ceiling: u32,
    marks: &mut [u8; 729],
) -> (u8, u32) {
    let extended = technique == 2 || technique == 4;
    let Some(mut state) = closed_givens(grid, extended) else {
        *marks = [0; 729];
        return (4, 0);
    };
    let (outcome, count) = trials(&mut state, technique, extended, order, ceiling);
    *marks = if outcome == 4 { [0; 729] } else { state.marks };
    (outcome, count)
}

fn trials(
    state: &mut State,
    technique: u32,
    extended: bool,
    order: &[i16],
    ceiling: u32,
) -> (u8, u32) {
    if state.decided == 729 {
        return (1, 0);
    }
    if technique < 3 {
        return (2, 0);
    }
    let mut count = 0;
    loop {
        let mut failed = false;
        for &literal in order {
            if state.marks[usize::from(literal.unsigned_abs()) - 1] != 0 {
                continue;
            }
            if count == ceiling {
                return (3, count);
            }
            count += 1;
            if closed_with(state, extended, literal).is_none() {
                match closed_with(state, extended, -literal) {
                    None => return (4, count),
                    Some(next) => *state = next,
                }
                if state.decided == 729 {
                    return (1, count);
                }
                failed = true;
            }
        }
        if !failed {
            return (2, count);
        }
    }
}
