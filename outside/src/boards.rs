//! Boards: for each digit the cells that it may stand in, a bit for each. A band is three rows, its
//! cells numbered from 0 to 26, and a third is the three cells of a row in one box. Whatever is done
//! here loses no full grid that fits; nothing says that a bit that stays is right.

use crate::cases::Grid;
use crate::grid::is_given;

/// All cells of a band.
pub const ALL: u32 = (1 << 27) - 1;

/// The words of each digit, one for each band; the fourth is not used, so that they are four lanes.
type Words = [[u32; 4]; 9];

#[derive(Clone, Copy)]
pub struct Boards {
    pub words: Words,
    /// The words as they were looked at last.
    seen: Words,
    /// The cells that no digit was found alone in.
    open: [u32; 4],
}

/// Nothing fits.
pub enum Clash {
    /// A digit has no place in a band.
    Word(usize, usize),
    /// A cell has no digit.
    Cell(usize),
}

/// A digit in a cell of a band, each from 0.
#[derive(Clone, Copy)]
pub struct Place {
    pub digit: usize,
    pub band: usize,
    pub cell: usize,
}

/// The cells of each band with one digit or more, two or more, three or more.
pub struct Counts {
    pub one: [u32; 4],
    pub two: [u32; 4],
    pub three: [u32; 4],
}

/// The numbers of the bits of a word, rising.
pub fn bits(mut word: u32) -> impl Iterator<Item = usize> {
    std::iter::from_fn(move || {
        let bit = (word != 0).then(|| word.trailing_zeros() as usize);
        word &= word.wrapping_sub(1);
        bit
    })
}

impl Boards {
    /// The boards of a checked grid.
    pub fn of(grid: &[u8]) -> Boards {
        let band = [ALL, ALL, ALL, 0];
        let mut boards = Boards {
            words: [band; 9],
            seen: [[u32::MAX, u32::MAX, u32::MAX, 0]; 9],
            open: band,
        };
        for (at, &byte) in grid.iter().enumerate() {
            if is_given(byte) {
                let (digit, band, cell) = (usize::from(byte - b'1'), at / 27, at % 27);
                boards.place(Place { digit, band, cell });
                boards.fix(digit, band, 1 << cell);
            }
        }
        boards
    }

    /// The digit stands in the cell.
    pub fn place(&mut self, place: Place) {
        self.words[place.digit][place.band] &= PLACED[place.cell];
    }

    /// Another digit stands in the cell.
    pub fn strike(&mut self, place: Place) {
        self.words[place.digit][place.band] &= !(1 << place.cell);
    }

    /// The digit stands in these cells of a band: no other does.
    #[inline(always)]
    fn fix(&mut self, digit: usize, band: usize, cells: u32) {
        let own = self.words[digit][band];
        for words in &mut self.words {
            words[band] &= !cells;
        }
        self.words[digit][band] = own;
        self.open[band] &= !cells;
    }

    /// The digits left in a cell of a band, a bit for each.
    #[inline(always)]
    pub fn digits_at(&self, band: usize, cell: usize) -> u32 {
        let words = self.words.iter().enumerate();
        words.fold(0, |digits, (d, words)| {
            digits | (words[band] >> cell & 1) << d
        })
    }

    /// Looks at a digit in a band: places in no way through the band go; a column that is the only one
    /// of its box goes in the other bands; where the digit is found in a cell, no other stands there.
    #[inline(always)]
    fn look(&mut self, digit: usize, band: usize) -> Result<(), Clash> {
        let word = self.words[digit][band];
        let thirds = thirds_of(word);
        let left = word & SOME_WAY[thirds];
        if left == 0 {
            return Err(Clash::Word(digit, band));
        }
        let singles = SINGLES[columns_of(left)];
        for word in &mut self.words[digit] {
            *word &= !singles;
        }
        self.words[digit][band] = left;
        let alone = left & EVERY_WAY[thirds] & singles & self.open[band];
        if alone != 0 {
            self.fix(digit, band, alone);
        }
        self.seen[digit][band] = left;
        Ok(())
    }

    /// Looks at a cell: a digit that is the only one left is placed.
    #[inline(always)]
    fn look_at_cell(&mut self, band: usize, cell: usize) -> Result<(), Clash> {
        let digits = self.digits_at(band, cell);
        if digits == 0 {
            return Err(Clash::Cell(27 * band + cell));
        }
        if digits.is_power_of_two() {
            let digit = digits.trailing_zeros() as usize;
            self.place(Place { digit, band, cell });
        }
        Ok(())
    }

    /// The digits in each band that were not looked at since their words changed.
    #[inline(never)]
    fn changed(&self) -> [u32; 4] {
        let mut digits = [0; 4];
        for (d, (words, seen)) in self.words.iter().zip(&self.seen).enumerate() {
            for (digits, (word, seen)) in digits.iter_mut().zip(words.iter().zip(seen)) {
                *digits |= if word != seen { 1 << d } else { 0 };
            }
        }
        digits
    }

    #[inline(always)]
    fn counts(&self) -> Counts {
        let [mut one, mut two, mut three] = [[0; 4]; 3];
        for words in &self.words {
            for j in 0..4 {
                three[j] |= two[j] & words[j];
                two[j] |= one[j] & words[j];
                one[j] |= words[j];
            }
        }
        Counts { one, two, three }
    }

    /// Looks at words and cells until nothing changes.
    #[inline(never)]
    pub fn settle(&mut self) -> Result<Counts, Clash> {
        loop {
            loop {
                let changed = self.changed();
                if changed == [0; 4] {
                    break;
                }
                for (band, digits) in changed[..3].iter().enumerate() {
                    for digit in bits(*digits) {
                        self.look(digit, band)?;
                    }
                }
            }
            let counts = self.counts();
            let mut any = 0;
            for band in 0..3 {
                let cells = !counts.two[band] & self.open[band] | ALL & !counts.one[band];
                any |= cells;
                for cell in bits(cells) {
                    self.look_at_cell(band, cell)?;
                }
            }
            if any == 0 {
                return Ok(counts);
            }
        }
    }

    /// The only grid that may fit, where each digit stands alone in its cells.
    pub fn only(&self) -> Option<Grid> {
        let mut grid = [b'1'; 81];
        for (digit, words) in (b'2'..).zip(&self.words[1..]) {
            for band in 0..3 {
                for cell in bits(words[band]) {
                    grid[27 * band + cell] = digit;
                }
            }
        }
        let mut words = [[0; 4]; 9];
        for (band, bytes) in grid.chunks_exact(27).enumerate() {
            for (cell, byte) in bytes.iter().enumerate() {
                words[usize::from(byte - b'1')][band] |= 1 << cell;
            }
        }
        (words == self.words).then_some(grid)
    }
}

/// The thirds that a word has a cell of, bit 3 t + r for third t of row r.
#[inline(always)]
fn thirds_of(word: u32) -> usize {
    let firsts = (word | word >> 1 | word >> 2) & 0o111_111_111;
    ((firsts | firsts >> 8 | firsts >> 16) & 511) as usize
}

/// The columns that a word has a cell of.
#[inline(always)]
fn columns_of(word: u32) -> usize {
    ((word | word >> 9 | word >> 18) & 511) as usize
}

/// The ways through a band, as thirds: one in each row, no two in one box.
const WAYS: [usize; 6] = [0o124, 0o142, 0o214, 0o241, 0o412, 0o421];

/// The cells of thirds.
const fn cells_of(thirds: usize) -> u32 {
    let (mut cells, mut third) = (0, 0);
    while third < 9 {
        if thirds >> third & 1 == 1 {
            cells |= 7 << (9 * (third % 3) + 3 * (third / 3));
        }
        third += 1;
    }
    cells
}

/// By the thirds that have a place: the cells of the ways that are left.
static SOME_WAY: [u32; 512] = {
    let (mut table, mut thirds) = ([0; 512], 0);
    while thirds < 512 {
        let mut way = 0;
        while way < 6 {
            if WAYS[way] & !thirds == 0 {
                table[thirds] |= cells_of(WAYS[way]);
            }
            way += 1;
        }
        thirds += 1;
    }
    table
};

/// By the thirds that have a place: the cells that each way that is left has.
static EVERY_WAY: [u32; 512] = {
    let (mut table, mut thirds) = ([ALL; 512], 0);
    while thirds < 512 {
        let mut way = 0;
        while way < 6 {
            if WAYS[way] & !thirds == 0 {
                table[thirds] &= cells_of(WAYS[way]);
            }
            way += 1;
        }
        thirds += 1;
    }
    table
};

/// By the columns that have a place: the cells of those that are the only one of their box.
static SINGLES: [u32; 512] = {
    let (mut table, mut columns) = ([0; 512], 0);
    while columns < 512 {
        let mut third = 0;
        while third < 3 {
            let of_box = columns as u32 & 7 << (3 * third);
            if of_box.is_power_of_two() {
                table[columns] |= of_box | of_box << 9 | of_box << 18;
            }
            third += 1;
        }
        columns += 1;
    }
    table
};

/// By a cell: that cell, and those of its band that share no house with it.
static PLACED: [u32; 27] = {
    let (mut table, mut cell) = ([0; 27], 0);
    while cell < 27 {
        let mut other = 0;
        while other < 27 {
            let apart =
                cell / 9 != other / 9 && cell % 9 != other % 9 && cell % 9 / 3 != other % 9 / 3;
            if other == cell || apart {
                table[cell] |= 1 << other;
            }
            other += 1;
        }
        cell += 1;
    }
    table
};

/// The cells of a band that share a house with one.
pub fn near(cell: usize) -> u32 {
    ALL & !PLACED[cell]
}
