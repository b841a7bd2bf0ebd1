//! The grids that may fit boards, counted to two. A place that is left is tried with its digit and
//! without it, so that any place will do. A count is made by attempts, each with four times the nodes
//! of the one before; from the second on they go by the words and cells where those before failed, and
//! pass over nodes near the root in which a house is crowded.

use crate::boards::{bits, near, Boards, Clash, Counts, Place};
use crate::cases::Grid;

/// More than one grid may fit, or the nodes are spent.
pub struct Stop;

pub struct Count {
    /// The nodes taken in all, and how many are enough, for hunts.
    pub nodes: usize,
    pub most: usize,
    /// The nodes that are left to the attempt, and its number.
    left: usize,
    attempt: usize,
    /// Whether the next grid that is found is one too many.
    enough: bool,
    /// The grid that was found last.
    pub guess: Grid,
    /// How often nothing fitted, by the word and the cell where that was found.
    words: [[u32; 3]; 9],
    cells: [u32; 81],
}

/// The nodes of the first attempt.
const FIRST: usize = 1_000;

/// To how many branches of a node crowded houses are looked for.
const SHALLOW: usize = 5;

impl Count {
    pub fn new(most: usize) -> Count {
        Count {
            nodes: 0,
            most,
            left: 0,
            attempt: 0,
            enough: false,
            guess: [0; 81],
            words: [[0; 3]; 9],
            cells: [0; 81],
        }
    }

    /// The only grid that may fit boards, or none. Where one is enough, a grid that is found stops it.
    pub fn attempts(&mut self, boards: &Boards, enough: bool) -> Result<Option<Grid>, Stop> {
        let mut nodes = FIRST;
        for attempt in 0..20 {
            (self.left, self.attempt, self.enough) = (nodes, attempt, enough);
            let outcome = self.count(&mut boards.clone(), SHALLOW);
            if outcome.is_ok() || self.left > 0 || self.nodes >= self.most {
                return outcome;
            }
            nodes *= 4;
        }
        Err(Stop)
    }

    /// The same, with the nodes that are left.
    fn count(&mut self, boards: &mut Boards, shallow: usize) -> Result<Option<Grid>, Stop> {
        let mut found = None;
        while self.left > 0 {
            self.left -= 1;
            self.nodes += 1;
            let counts = match boards.settle() {
                Ok(counts) => counts,
                Err(clash) => {
                    self.failed(clash);
                    return Ok(found);
                }
            };
            let Some(place) = self.choose(boards, &counts) else {
                self.guess = boards.only().ok_or(Stop)?;
                if self.enough {
                    return Err(Stop);
                }
                self.enough = true;
                return joined(found, Some(self.guess));
            };
            if self.attempt > 0 && shallow > 0 && boards.is_crowded() {
                return Ok(found);
            }
            let mut with = *boards;
            with.place(place);
            let more = self.count(&mut with, shallow.saturating_sub(1))?;
            found = joined(found, more)?;
            boards.strike(place);
        }
        Err(Stop)
    }

    fn failed(&mut self, clash: Clash) {
        match clash {
            Clash::Word(digit, band) => self.words[digit][band] += 1,
            Clash::Cell(cell) => self.cells[cell] += 1,
        }
    }

    /// The place that is tried next, or none where each cell has one digit. The first attempt takes,
    /// of the cells with two digits, the one that most candidates for them see. Others, and where
    /// there is no such cell, take the cell or house with the fewest candidates for its clashes.
    fn choose(&self, boards: &Boards, counts: &Counts) -> Option<Place> {
        if counts.two == [0; 4] {
            return None;
        }
        let most_seen = || self.most_seen(boards, counts);
        let first = if self.attempt == 0 { most_seen() } else { None };
        first.or_else(|| self.lightest(boards, counts))
    }

    #[inline(never)]
    fn most_seen(&self, boards: &Boards, counts: &Counts) -> Option<Place> {
        let pairs = std::array::from_fn(|j| counts.two[j] & !counts.three[j]);
        let mut choice = Choice::default();
        for band in 0..3 {
            for cell in bits(pairs[band]) {
                let digits = boards.digits_at(band, cell);
                let seen = bits(digits).map(|digit| seen_by(boards, &pairs, digit, band, cell));
                let weight = 1 + seen.sum::<u32>() + 4 * self.cells[27 * band + cell];
                let digit = digits.trailing_zeros() as usize;
                choice.or(weight, Place { digit, band, cell });
            }
        }
        choice.place
    }

    #[inline(never)]
    fn lightest(&self, boards: &Boards, counts: &Counts) -> Option<Place> {
        let mut choice = Choice::default();
        for band in 0..3 {
            for cell in bits(counts.two[band]) {
                let digits = boards.digits_at(band, cell);
                let weight = weight_of(digits, self.cells[27 * band + cell]);
                let digit = self.one_of(digits);
                choice.or(weight, Place { digit, band, cell });
            }
        }
        for digit in 0..9 {
            for band in 0..3 {
                let word = boards.words[digit][band];
                for k in 0..3 {
                    for cells in [word & ROW << (9 * k), word & BOX << (3 * k)] {
                        if cells.count_ones() > 1 {
                            let weight = weight_of(cells, self.words[digit][band]);
                            let cell = self.one_of(cells);
                            choice.or(weight, Place { digit, band, cell });
                        }
                    }
                }
            }
        }
        choice.place
    }

    /// Of two bits or more the lowest, in each other attempt the highest or the second.
    #[inline(always)]
    fn one_of(&self, bits: u32) -> usize {
        let bit = match self.attempt % 4 {
            0 | 2 => bits.trailing_zeros(),
            1 => bits.ilog2(),
            _ => (bits & (bits - 1)).trailing_zeros(),
        };
        bit as usize
    }
}

/// What is found with a place and without it; two are too many.
fn joined(found: Option<Grid>, more: Option<Grid>) -> Result<Option<Grid>, Stop> {
    match (found, more) {
        (Some(_), Some(_)) => Err(Stop),
        (None, only) | (only, None) => Ok(only),
    }
}

/// The first column of a band, its first row and its first box.
const COLUMN: u32 = 0o1_001_001;
const ROW: u32 = 0o777;
const BOX: u32 = 0o7_007_007;

/// A place, and how much speaks for it.
#[derive(Default)]
struct Choice {
    weight: u32,
    place: Option<Place>,
}

impl Choice {
    #[inline(always)]
    fn or(&mut self, weight: u32, place: Place) {
        if weight > self.weight {
            (self.weight, self.place) = (weight, Some(place));
        }
    }
}

/// How many candidates for a digit see a cell, those in cells with two digits five times.
#[inline(always)]
fn seen_by(boards: &Boards, pairs: &[u32; 4], digit: usize, band: usize, cell: usize) -> u32 {
    let seen = (0..3).map(|k| {
        let sight = if k == band {
            near(cell)
        } else {
            COLUMN << (cell % 9)
        };
        let peers = boards.words[digit][k] & sight;
        peers.count_ones() + 4 * (peers & pairs[k]).count_ones()
    });
    seen.sum()
}

/// The more clashes for each candidate, the more speaks for it.
fn weight_of(candidates: u32, failed: u32) -> u32 {
    (failed.min(65_535) + 1) * 4_096 / candidates.count_ones()
}
