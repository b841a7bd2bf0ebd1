//! Marks of the 729 variables and the unit closure, taken by sweeping the clauses again and again
//! until a sweep adds nothing. The marks are the closure's literals: a set with both signs of a
//! variable is a contradiction, and the sweep ends there.

use crate::clauses::Clause;
use crate::grid::VARIABLES;

pub const UNDECIDED: u8 = 0;
pub const TRUE: u8 = 1;
pub const FALSE: u8 = 2;

pub type Marks = [u8; VARIABLES];

/// The marks with the number of decided variables.
#[derive(Clone, Debug, PartialEq, Eq)]
pub struct State {
    pub marks: Marks,
    pub decided: usize,
}

/// The closure holds both signs of some variable.
#[derive(Clone, Copy, Debug, PartialEq, Eq)]
pub struct Contradiction;

impl State {
    /// The state of literals over distinct variables.
    pub fn of(literals: &[i16]) -> State {
        let mut state = State {
            marks: [UNDECIDED; VARIABLES],
            decided: 0,
        };
        for &literal in literals {
            state.join(literal);
        }
        state
    }

    /// Adds a literal of an undecided variable.
    pub fn join(&mut self, literal: i16) {
        self.marks[index(literal)] = if literal > 0 { TRUE } else { FALSE };
        self.decided += 1;
    }

    pub fn decides(&self, literal: i16) -> bool {
        self.marks[index(literal)] != UNDECIDED
    }

    pub fn holds(&self, literal: i16) -> bool {
        self.marks[index(literal)] == if literal > 0 { TRUE } else { FALSE }
    }

    pub fn all_decided(&self) -> bool {
        self.decided == VARIABLES
    }
}

fn index(literal: i16) -> usize {
    usize::from(literal.unsigned_abs()) - 1
}

/// Extends the state to its unit closure over the clauses.
pub fn close(clauses: &[Clause], state: &mut State) -> Result<(), Contradiction> {
    loop {
        let before = state.decided;
        for clause in clauses {
            match reading(clause, state) {
                Reading::Idle => {}
                Reading::Unit(literal) => state.join(literal),
                Reading::Empty => return Err(Contradiction),
            }
        }
        if state.decided == before {
            return Ok(());
        }
    }
}

/// What the unit rule gets from a clause in a state.
enum Reading {
    /// A literal holds already, or two are undecided: nothing to add.
    Idle,
    /// The negations of all others are in the state, and this one is undecided.
    Unit(i16),
    /// All negations are in the state, so each literal joins beside its negation.
    Empty,
}

fn reading(clause: &Clause, state: &State) -> Reading {
    let mut undecided = None;
    for &literal in clause.literals() {
        if state.holds(literal) {
            return Reading::Idle;
        }
        if !state.decides(literal) {
            if undecided.is_some() {
                return Reading::Idle;
            }
            undecided = Some(literal);
        }
    }
    match undecided {
        Some(literal) => Reading::Unit(literal),
        None => Reading::Empty,
    }
}

/// The clauses of which no literal holds. The others add nothing to a closure of a larger state:
/// what they could add is there already, unless that closure is a contradiction by other means.
pub fn unsatisfied(clauses: &[Clause], state: &State) -> Vec<Clause> {
    let satisfied = |clause: &&Clause| {
        clause
            .literals()
            .iter()
            .any(|&literal| state.holds(literal))
    };
    clauses
        .iter()
        .filter(|clause| !satisfied(clause))
        .copied()
        .collect()
}
