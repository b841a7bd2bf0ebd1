//! A search by unit closures, in plain Rust: the bench times the proved search beside it too. The search
//! takes the unit closure over the extended set, and branches on the first open cell with its digits
//! rising, so completions come in byte order. A branch is entered unless a test finds that it leaves
//! nothing. The test first makes a plain attempt, a small tree that branches on the cell with the
//! fewest digits left. Where that is not enough, each node of an attempt looks for a house in which
//! some cells have fewer digits left between them than they are; else it dives for a full grid; else
//! it tries each place, those where a test has failed before first, as long as that decides a place
//! more, notes what the trial decides, and branches on the group that promises the smallest tree. It
//! starts again where that is too large. A full grid that it comes upon is kept as a guess, and a
//! branch that the guess agrees with needs no test.

use crate::cases::Grid;
use crate::grid::{CELLS, VARIABLES};
use crate::plain_job::{Closing, State};

struct Search {
    /// The smallest completions, at most two.
    found: Vec<Grid>,
    closing: Closing<true>,
    /// The marks of the full grid that a test came upon last.
    guess: [u8; VARIABLES],
    /// How often a test ended at a place that can be neither true nor false.
    failures: [u32; VARIABLES],
}

/// How many groups there are: the cells, then each house for each digit.
const GROUPS: usize = 324;

/// The nodes of the plain attempt.
const PLAIN: usize = 160;

/// What is found of a state before a branch.
enum Looked {
    /// It leaves nothing.
    Nothing,
    /// It leaves a full grid, which is the guess.
    Full,
    /// The group to branch on.
    Branch(usize),
}

/// What an attempt to refute a state comes to.
enum Attempt {
    /// It leaves nothing; so many nodes were not needed.
    Refuted(usize),
    /// It leaves a full grid, which is the guess.
    Full,
    /// The nodes were too few.
    Spent,
}

/// The smallest completions of a checked grid, at most two, in byte order.
pub fn smallest_two(grid: &Grid) -> Vec<Grid> {
    let mut search = Search {
        found: Vec::new(),
        closing: Closing::new(),
        guess: [0; VARIABLES],
        failures: [0; VARIABLES],
    };
    if let Some(state) = search.closing.givens(grid) {
        if !search.refuted(&state) {
            search.explore(&state);
        }
    }
    search.found
}

impl Search {
    /// The completions of a state, as long as fewer than two are found.
    fn explore(&mut self, state: &State) {
        let true_digit = |cell| (9 * cell..9 * cell + 9).find(|&place| state.marks[place] == 1);
        let Some(open) = (0..CELLS).find(|&cell| true_digit(cell).is_none()) else {
            let digit = |cell| true_digit(cell).map_or(0, |place| b'1' + (place % 9) as u8);
            self.found.push(std::array::from_fn(digit));
            return;
        };
        for place in 9 * open..9 * open + 9 {
            if state.marks[place] == 0 && self.found.len() < 2 {
                let mut next = *state;
                if self.closing.join(&mut next, place as i16 + 1)
                    && (self.guess[place] == 1 || !self.refuted(&next))
                {
                    self.explore(&next);
                }
            }
        }
    }

    /// Whether a state leaves nothing; else the guess is a full grid that it leaves. After the plain
    /// attempt, each has twice the nodes of the one before.
    fn refuted(&mut self, state: &State) -> bool {
        let (mut nodes, mut plain) = (PLAIN, true);
        loop {
            match self.attempt(*state, nodes, plain) {
                Attempt::Refuted(_) => return true,
                Attempt::Full => return false,
                Attempt::Spent if plain => (nodes, plain) = (12, false),
                Attempt::Spent => nodes *= 2,
            }
        }
    }

    /// An attempt to refute a state with so many nodes.
    fn attempt(&mut self, mut state: State, nodes: usize, plain: bool) -> Attempt {
        if nodes == 0 {
            return Attempt::Spent;
        }
        let mut nodes = nodes - 1;
        let group = match self.look(&mut state, plain) {
            Looked::Nothing => return Attempt::Refuted(nodes),
            Looked::Full => return Attempt::Full,
            Looked::Branch(group) => group,
        };
        for place in places(group).filter(|&place| state.marks[place] == 0) {
            let mut next = state;
            if self.closing.join(&mut next, place as i16 + 1) {
                match self.attempt(next, nodes, plain) {
                    Attempt::Refuted(left) => nodes = left,
                    other => return other,
                }
            }
        }
        Attempt::Refuted(nodes)
    }

    /// What an attempt does before a branch: a plain one only looks for the cell with the fewest
    /// digits left.
    fn look(&mut self, state: &mut State, plain: bool) -> Looked {
        let group = if plain {
            narrowest(state)
        } else {
            if crowded(state) {
                return Looked::Nothing;
            }
            if self.dive(*state) {
                return Looked::Full;
            }
            let mut weights = [0; VARIABLES];
            if !self.weigh(state, &mut weights) {
                return Looked::Nothing;
            }
            lightest(state, &weights, &self.failures)
        };
        if let Some(group) = group {
            return Looked::Branch(group);
        }
        self.guess = state.marks;
        Looked::Full
    }

    /// A full grid by the first digit left in each open cell, the cell with the fewest left first;
    /// false where there is none.
    fn dive(&mut self, mut state: State) -> bool {
        while let Some(cell) = narrowest(&state) {
            let open = places(cell).find(|&place| state.marks[place] == 0);
            if !open.is_some_and(|place| self.closing.join(&mut state, place as i16 + 1)) {
                return false;
            }
        }
        self.guess = state.marks;
        true
    }

    /// A trial of each place, first of those at which a test has failed before: where it fails, the
    /// place becomes false, else its weight is noted. This is repeated until it decides nothing more.
    /// False at a place that can be neither.
    fn weigh(&mut self, state: &mut State, weights: &mut [u32; VARIABLES]) -> bool {
        while state.decided < VARIABLES {
            let before = state.decided;
            if !self.weigh_from(state, weights, 1) || !self.weigh_from(state, weights, 0) {
                return false;
            }
            if state.decided == before {
                break;
            }
        }
        true
    }

    /// A trial of each place with at least so many failures.
    fn weigh_from(
        &mut self,
        state: &mut State,
        weights: &mut [u32; VARIABLES],
        least: u32,
    ) -> bool {
        for (place, noted) in weights.iter_mut().enumerate() {
            if state.marks[place] != 0 || self.failures[place] < least {
                continue;
            }
            let literal = place as i16 + 1;
            let mut next = *state;
            if self.closing.join(&mut next, literal) {
                *noted = weight(next.decided - state.decided);
            } else if !self.closing.join(state, -literal) {
                if self.failures[place] < 1_000_000 {
                    self.failures[place] += 4;
                }
                return false;
            }
        }
        true
    }
}

/// Whether some cells of a house have fewer digits left between them than they are. A choice of cells
/// is a number with a bit for each, and so are the digits left in it.
fn crowded(state: &State) -> bool {
    let counts: [u32; 512] = std::array::from_fn(|n| n.count_ones());
    (0..27).any(|house| {
        let mut unions = [0u16; 512];
        for (i, place) in places(CELLS + 9 * house).enumerate() {
            let first = place / 9 * 9;
            let left = (0..9).filter(|k| state.marks[first + k] != 2);
            let digits = left.fold(0, |digits, k| digits | 1 << k);
            let (known, more) = unions[..2 << i].split_at_mut(1 << i);
            for (union, with) in known.iter().zip(more) {
                *with = union | digits;
            }
        }
        (0..512).any(|n| counts[usize::from(unions[n]) % 512] < counts[n])
    })
}

/// The first open cell with the fewest digits left, or None where the state is full. A closed state
/// leaves at least two in each, so that the look ends at a cell with two.
fn narrowest(state: &State) -> Option<usize> {
    let mut narrowest = None;
    let mut fewest = 10;
    for (cell, marks) in state.marks.chunks_exact(9).enumerate() {
        let open = marks.iter().filter(|&&mark| mark == 0).count();
        if open > 0 && open < fewest {
            (narrowest, fewest) = (Some(cell), open);
            if open == 2 {
                break;
            }
        }
    }
    narrowest
}

/// How large the tree below a place is taken to be, by the number of places that its trial decides:
/// half as large for each 12.
fn weight(decided: usize) -> u32 {
    let halvings = decided / 12;
    if halvings < 32 {
        ((24 - decided % 12) as u32 * (1 << 26)) >> halvings
    } else {
        0
    }
}

/// The nine places of a group.
fn places(group: usize) -> impl Iterator<Item = usize> {
    let (house, digit) = (group.saturating_sub(CELLS) / 9, group % 9);
    (0..9).map(move |k| match house / 9 {
        _ if group < CELLS => 9 * group + k,
        0 => 9 * (9 * house + k) + digit,
        1 => 9 * (9 * k + house - 9) + digit,
        _ => 9 * (27 * (house / 3 - 6) + 3 * (house % 3) + 9 * (k / 3) + k % 3) + digit,
    })
}

/// The group with no true place whose undecided places weigh least, or None where each has a true
/// one. A group weighs less for each failure at one of its places.
fn lightest(
    state: &State,
    weights: &[u32; VARIABLES],
    failures: &[u32; VARIABLES],
) -> Option<usize> {
    let mut lightest = None;
    let mut least = u64::MAX;
    'groups: for group in 0..GROUPS {
        let (mut sum, mut failed) = (0, 0);
        for place in places(group) {
            match state.marks[place] {
                0 => sum += u64::from(weights[place]),
                1 => continue 'groups,
                _ => {}
            }
            failed += u64::from(failures[place]);
        }
        let here = (sum << 24) / (failed + 9);
        if here < least {
            (lightest, least) = (Some(group), here);
        }
    }
    lightest
}
