//! The job call by the steps of the proved one, in plain Rust: the bench times the proved call
//! beside it. A place is a variable less 1. Each nine-literal clause has a sum of what its places
//! weigh, so that a look at the sum tells whether it may act, and on which place. The clauses that may
//! act are listed by their numbers, each once, and looked at one by one. A place that becomes false
//! lists those that come to act; one that becomes true takes its own off, and lists the two-literal
//! clauses that it is in, and these act before the next look. Trials that are known to succeed are
//! only counted.

use crate::grid::{self, VARIABLES};
use crate::refusal::{demand, demand_none, Refusal};

/// An undecided place weighs this and its number, a true one twice this and its number, a false one
/// nothing. So a sum below twice this is 0, a contradiction, or names the only place that is left.
const OPEN: u16 = 1_024;

/// How many groups there are: the cells, then each column, row and box for each digit. Each is a
/// nine-literal clause of the extended set; the minimal set has those of the cells.
const GROUPS: usize = 324;

/// Each nine-literal clause is listed once at most, and one more is written behind them.
const ROOM: usize = GROUPS + 1;

/// The marks, the sums of the nine-literal clauses, and how many places are decided.
#[derive(Clone, Copy)]
pub(crate) struct State {
    pub(crate) marks: [u8; VARIABLES],
    sums: [u16; GROUPS],
    pub(crate) decided: usize,
}

impl State {
    /// No place decided.
    fn blank() -> State {
        let mut sums = [0; GROUPS];
        for c in 0..81 {
            let (ninth, place) = (c / 9, c % 9);
            sums[c] = (9_252 + 81 * c) as u16;
            sums[81 + c] = (12_132 + 9 * c) as u16;
            sums[162 + c] = (9_540 + 729 * ninth + 9 * place) as u16;
            sums[243 + c] = (10_026 + 9 * ninth + 2_187 * (place / 3) + 243 * (place % 3)) as u16;
        }
        State {
            marks: [0; VARIABLES],
            sums,
            decided: 0,
        }
    }
}

/// The groups of a place: its cell, and its column, its row and its box for its digit.
#[inline(always)]
fn groups(p: u16) -> [u16; 4] {
    let (cell, digit) = (p / 9, p % 9);
    let (row, column) = (cell / 9, cell % 9);
    [
        cell,
        81 + 9 * column + digit,
        162 + 9 * row + digit,
        243 + 9 * digit + 3 * (row / 3) + column / 3,
    ]
}

/// How far the numbers of F7 to F9 are above their groups; F1's are the same.
const ABOVE: u16 = 11_664;

/// The group of a clause's number.
#[inline(always)]
fn group_of(clause: u16) -> usize {
    usize::from(if clause < ABOVE {
        clause
    } else {
        clause - ABOVE
    })
}

/// The index of a pair of nine places among the 36, the lower first.
const fn pair_index(low: usize, high: usize) -> u16 {
    (low * (17 - low) / 2 + high - low - 1) as u16
}

/// The index of a pair of places of a box: among the nine in one row of it, or the 27 in two.
const fn box_index(low: usize, high: usize) -> u16 {
    let (row, column) = (low / 3, low % 3);
    let index = if row == high / 3 {
        3 * row + column + high % 3 - 1
    } else {
        18 * row + (6 - 3 * row) * column + 3 * (high / 3 - row - 1) + high % 3
    };
    index as u16
}

/// Both indices for all places: the nine rows of the pairs, and then those of the pairs in a box.
const PAIRS: [[u16; 9]; 18] = {
    let mut pairs = [[0; 9]; 18];
    let mut low = 0;
    while low < 9 {
        let mut high = low + 1;
        while high < 9 {
            pairs[low][high] = pair_index(low, high);
            pairs[high][low] = pair_index(low, high);
            pairs[9 + low][high] = box_index(low, high);
            pairs[9 + high][low] = box_index(low, high);
            high += 1;
        }
        low += 1;
    }
    pairs
};

/// Places of a group of a place, from one on and before another: the first of the group, and the
/// steps from three to three and from one to the next; the row of `PAIRS`, and the number from which
/// the pairs with these places are counted.
struct Run {
    places: (usize, usize),
    line: [usize; 3],
    row: usize,
    number: usize,
}

/// The runs of a place in the order of `groups`; the box by its rows, since the pairs in one row of it
/// are a family of their own.
#[inline(always)]
fn runs(p: usize) -> [Run; 6] {
    let (cell, digit) = (p / 9, p % 9);
    let (row, column) = (cell / 9, cell % 9);
    let (band, stack) = (row / 3, column / 3);
    let number = 9 * digit + 3 * band + stack;
    let in_box = |third: usize| Run {
        places: (3 * third, 3 * third + 3),
        line: [243 * band + 27 * stack + digit, 81, 9],
        row: 9 + 3 * (row % 3) + column % 3,
        number: if third == row % 3 {
            5_913 + 9 * number
        } else {
            6_642 + 27 * number
        },
    };
    [
        Run {
            places: (0, 9),
            line: [9 * cell, 3, 1],
            row: digit,
            number: 8_829 + 36 * cell,
        },
        Run {
            places: (0, 9),
            line: [9 * column + digit, 243, 81],
            row,
            number: 81 + 36 * (9 * column + digit),
        },
        Run {
            places: (0, 9),
            line: [81 * row + digit, 27, 9],
            row: column,
            number: 2_997 + 36 * (9 * row + digit),
        },
        in_box(0),
        in_box(1),
        in_box(2),
    ]
}

/// Unit closures over the extended clause set, or the minimal one.
pub(crate) struct Closing<const EXTENDED: bool> {
    /// The clauses that may act: nine-literal ones, the first so many, and from `ROOM` on those of two
    /// literals.
    list: [u16; ROOM + 36],
    listed: usize,
}

impl<const EXTENDED: bool> Closing<EXTENDED> {
    pub(crate) fn new() -> Self {
        Closing {
            list: [0; ROOM + 36],
            listed: 0,
        }
    }

    /// How many of a place's groups, the first of them, have a clause of the set.
    const NINES: usize = if EXTENDED { 4 } else { 1 };

    /// An undecided place becomes true: it weighs more.
    #[inline(always)]
    fn raise(&mut self, state: &mut State, p: usize) {
        for &group in &groups(p as u16)[..Self::NINES] {
            // SAFETY: a group is below 324.
            unsafe { *state.sums.get_unchecked_mut(usize::from(group)) += OPEN };
        }
        state.marks[p] = 1;
        state.decided += 1;
    }

    /// An undecided place becomes false: it weighs nothing. The clause of each of its groups is
    /// written to the list, and stays there if one place of it comes to be left: that needs no branch.
    #[inline(always)]
    fn deny(&mut self, state: &mut State, p: usize) {
        let weight = OPEN + p as u16;
        for (kind, &group) in groups(p as u16)[..Self::NINES].iter().enumerate() {
            let clause = if kind == 0 { group } else { group + ABOVE };
            // SAFETY: a group is below 324, and so many clauses are listed at most.
            unsafe {
                let sum = state.sums.get_unchecked_mut(usize::from(group));
                *sum -= weight;
                *self.list.get_unchecked_mut(self.listed) = clause;
                self.listed += usize::from(*sum >= OPEN && *sum < 2 * OPEN);
            }
        }
        state.marks[p] = 2;
        state.decided += 1;
    }

    /// Takes the clauses off that have a true place; false where one that stays has no place left.
    #[inline(always)]
    fn settle(&mut self, sums: &[u16; GROUPS]) -> bool {
        let mut listed = 0;
        let mut clash = false;
        for i in 0..self.listed {
            // SAFETY: so many clauses are listed, and their groups are below 324.
            unsafe {
                let clause = *self.list.get_unchecked(i);
                let sum = *sums.get_unchecked(group_of(clause));
                *self.list.get_unchecked_mut(listed) = clause;
                listed += usize::from(sum < 2 * OPEN);
                clash |= sum == 0;
            }
        }
        self.listed = listed;
        !clash
    }

    /// An undecided place becomes true. The clauses of two literals that it is in are written to the
    /// list, each with the other place beside it, and stay there if that is undecided, without a
    /// branch for each; then they strike. False for a contradiction.
    #[inline(always)]
    fn affirm(&mut self, state: &mut State, p: usize) -> bool {
        self.raise(state, p);
        if !self.settle(&state.sums) {
            return false;
        }
        let mut beside = [0u16; 36];
        let mut count = 0;
        let first_pairs = if EXTENDED { 0 } else { 1 };
        for run in &runs(p)[first_pairs..] {
            let [first, far, near] = run.line;
            for k in run.places.0..run.places.1 {
                let q = first + far * (k / 3) + near * (k % 3);
                // SAFETY: the runs have 36 places, all below 729, and a row of `PAIRS` below 18.
                unsafe {
                    let index = PAIRS.get_unchecked(run.row).get_unchecked(k);
                    *self.list.get_unchecked_mut(ROOM + count) = run.number as u16 + index;
                    *beside.get_unchecked_mut(count) = q as u16;
                    count += usize::from(*state.marks.get_unchecked(q) == 0);
                }
            }
        }
        while count != 0 {
            count -= 1;
            // SAFETY: there are 36 places at most, each below 729.
            unsafe {
                let q = usize::from(*beside.get_unchecked(count));
                if *state.marks.get_unchecked(q) == 0 {
                    self.deny(state, q);
                }
            }
        }
        true
    }

    /// Looks at the nine-literal clauses that are listed, the last one first; false for a
    /// contradiction.
    fn propagate(&mut self, state: &mut State) -> bool {
        while self.listed > 0 {
            let sum = state.sums[group_of(self.list[self.listed - 1])];
            if sum == 0 || !self.affirm(state, usize::from(sum - OPEN)) {
                return false;
            }
        }
        true
    }

    /// The unit closure of a state with one literal more, which it does not decide; false for a
    /// contradiction.
    pub(crate) fn join(&mut self, state: &mut State, literal: i16) -> bool {
        let p = usize::from(literal.unsigned_abs()) - 1;
        self.listed = 0;
        if literal < 0 {
            self.deny(state, p);
            self.propagate(state)
        } else {
            self.affirm(state, p) && self.propagate(state)
        }
    }

    /// The unit closure of a grid's givens, or None for a contradiction.
    pub(crate) fn givens(&mut self, grid: &[u8]) -> Option<State> {
        let mut state = State::blank();
        for literal in grid::givens(grid) {
            let closed = match state.marks[literal as usize - 1] {
                0 => self.join(&mut state, literal),
                mark => mark == 1,
            };
            if !closed {
                return None;
            }
        }
        Some(state)
    }
}

/// The same outcomes, counts, marks and refusals as the job call.
pub fn job(
    grid: &[u8],
    technique: u32,
    order: &[i16],
    ceiling: u32,
    marks: &mut [u8],
) -> Result<(u8, u32), Refusal> {
    let marks = <&mut [u8; VARIABLES]>::try_from(marks).map_err(|_| Refusal::new(41))?;
    grid::check(grid)?;
    demand((1..=4).contains(&technique), 21)?;
    check_order(order)?;
    let sure = [0; VARIABLES];
    Ok(run(grid, technique, order, ceiling, &sure, marks))
}

/// 22, 23 and 24 in one pass over the order. The first repeat is kept until the end, since an entry
/// that is no literal is refused before it.
pub(crate) fn check_order(order: &[i16]) -> Result<(), Refusal> {
    demand(order.len() == 1_458, 22)?;
    let mut seen = [false; 1_459];
    let mut repeat = None;
    for (place, &literal) in order.iter().enumerate() {
        if literal == 0 || !(-729..=729).contains(&literal) {
            return Err(Refusal::at(23, place));
        }
        let seen = &mut seen[(literal + 729) as usize];
        if *seen && repeat.is_none() {
            repeat = Some(place);
        }
        *seen = true;
    }
    demand_none(repeat, 24)
}

/// Outcome and count of a checked job, and its marks. Literals that are sure, as bits of their
/// variables, 1 for the positive one and 2 for the negative, are known to succeed in every trial.
pub(crate) fn run(
    grid: &[u8],
    technique: u32,
    order: &[i16],
    ceiling: u32,
    sure: &[u8; VARIABLES],
    marks: &mut [u8; VARIABLES],
) -> (u8, u32) {
    let ((outcome, count), closed) = if matches!(technique, 2 | 4) {
        run_over::<true>(grid, technique, order, ceiling, sure)
    } else {
        run_over::<false>(grid, technique, order, ceiling, sure)
    };
    *marks = if outcome == 4 { [0; VARIABLES] } else { closed };
    (outcome, count)
}

fn run_over<const EXTENDED: bool>(
    grid: &[u8],
    technique: u32,
    order: &[i16],
    ceiling: u32,
    sure: &[u8; VARIABLES],
) -> ((u8, u32), [u8; VARIABLES]) {
    let mut closing = Closing::<EXTENDED>::new();
    let Some(mut state) = closing.givens(grid) else {
        return ((4, 0), [0; VARIABLES]);
    };
    let answer = if state.decided == VARIABLES {
        (1, 0)
    } else if technique < 3 {
        (2, 0)
    } else {
        trials(&mut closing, &mut state, order, ceiling, sure)
    };
    (answer, state.marks)
}

/// Passes over the order until none of the trials in one fails, and how many trials they take. All
/// that the closure of a trial that succeeds has would succeed too, as long as the state is the
/// same, so that such a trial is counted and not made.
fn trials<const EXTENDED: bool>(
    closing: &mut Closing<EXTENDED>,
    state: &mut State,
    order: &[i16],
    ceiling: u32,
    sure: &[u8; VARIABLES],
) -> (u8, u32) {
    let mut known = *sure;
    let mut count = 0;
    loop {
        let mut failed = false;
        for &literal in order {
            let p = usize::from(literal.unsigned_abs()) - 1;
            if state.marks[p] != 0 {
                continue;
            }
            if count == ceiling {
                return (3, count);
            }
            count += 1;
            if known[p] & mark_of(literal) != 0 {
                continue;
            }
            let mut with = *state;
            if closing.join(&mut with, literal) {
                note(&mut known, &with.marks);
                continue;
            }
            failed = true;
            if !closing.join(state, -literal) {
                return (4, count);
            }
            if state.decided == VARIABLES {
                return (1, count);
            }
            known = *sure;
        }
        if !failed {
            return (2, count);
        }
    }
}

/// A variable's mark where the literal is true, which is its bit too.
fn mark_of(literal: i16) -> u8 {
    if literal > 0 {
        1
    } else {
        2
    }
}

/// All literals of the marks are known from here on.
fn note(known: &mut [u8; VARIABLES], marks: &[u8; VARIABLES]) {
    for (known, mark) in known.iter_mut().zip(marks) {
        *known |= mark;
    }
}
