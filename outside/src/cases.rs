//! Grids to compare on: named ones, and generated ones with none, one or several completions. A
//! small generator of random numbers makes every run the same.

use crate::grid::{is_given, CELLS, HOUSES};
use crate::order::default_order;
use crate::search::smallest_two;
use std::sync::LazyLock;

pub type Grid = [u8; CELLS];

/// The full grid G.
pub const G: &Grid =
    b"123456789456789123789123456231564897564897231897231564312645978645978312978312645";

/// AI Escargot, a hard published grid.
pub const AI_ESCARGOT: &Grid =
    b"100007090030020008009600500005300900010080002600004000300000010040000007007000300";

/// Open under technique 3, solved under technique 4: by the default order after 2,452 trials and 122.
pub const VERDICT_FOUR: &Grid =
    b"150006020800200010004000900500000402060000000042001690000403170000700009000680000";

/// The rows of figure 5, hard grids published after AI Escargot, that have 81 signs.
pub const FIGURE_FIVE: [&Grid; 9] = [
    b"100007000020030500004900000008006001090000020700000300000001008030050060000400700",
    b"000001020300040500000600007002000006050030080400000900900002000080050400001700000",
    b"000001020300040500000600007001000006040080090500000300800002000050090400006700000",
    b"003400000050009200700060000200000700090000010008005004000300008010002900000070060",
    b"000001020300040500000600001001000007050030040800000900400002000090050800006700000",
    b"100050080000009003000200400004000900030000007800600050002800060500010000070004000",
    b"100050000006009000080200004040030008007000060900000100030800002000004050000010700",
    b"003200000040090000600008010200000003010006040007000500000001002090040060000500700",
    b"020400000006080100700003000000060300000200005090007040300000800001000090040500002",
];

/// A grid of dots with givens (row, column, digit), rows and columns from 1.
pub fn with_givens(givens: &[(usize, usize, u8)]) -> Grid {
    let mut grid = [b'.'; CELLS];
    for &(x, y, z) in givens {
        grid[9 * (x - 1) + y - 1] = b'0' + z;
    }
    grid
}

/// The grids of the bench table, with a blank in G and the rows of figure 5.
pub fn named() -> Vec<Grid> {
    let mut one_blank = *G;
    one_blank[0] = b'.';
    let first_row: Vec<_> = (1..=8).map(|z| (1, usize::from(z), z)).collect();
    let mut grids = vec![
        *G,
        one_blank,
        *AI_ESCARGOT,
        with_givens(&[]),
        with_givens(&[(1, 1, 1)]),
        with_givens(&[(1, 1, 5), (1, 2, 5)]),
        with_givens(&[(2, 4, 1), (3, 7, 1), (4, 2, 1), (7, 3, 1)]),
        with_givens(&[&first_row[..], &[(5, 9, 9)]].concat()),
    ];
    grids.extend(FIGURE_FIVE.into_iter().copied());
    grids
}

/// Grids that others have published, most of them as hard ones, each with one completion.
pub fn published() -> Vec<Grid> {
    lines(include_str!("../published-grids"))
}

/// Grids that cost a search much: few givens, no completion, or the first only after long.
pub fn bad() -> Vec<Grid> {
    lines(include_str!("../bad-grids"))
}

/// How many of `slow` come first that were made for the search before; the others are finds of hunts
/// for this one.
pub const SLOW_BEFORE: usize = 416;

/// Such grids of which the reference's search takes too long to compare with.
pub fn slow() -> Vec<Grid> {
    lines(include_str!("../slow-grids"))
}

fn lines(text: &str) -> Vec<Grid> {
    text.lines()
        .map(|line| Grid::try_from(line.as_bytes()).expect("81 bytes a line"))
        .collect()
}

/// Completions of the named grids, the full grids that all generated ones come from.
static BASES: LazyLock<Vec<Grid>> =
    LazyLock::new(|| named().iter().flat_map(|grid| smallest_two(grid)).collect());

/// Random numbers by repeated mixing of a counter (splitmix64).
pub struct Random(pub u64);

impl Random {
    pub fn word(&mut self) -> u64 {
        self.0 = self.0.wrapping_add(0x9e37_79b9_7f4a_7c15);
        let mut word = self.0;
        word = (word ^ word >> 30).wrapping_mul(0xbf58_476d_1ce4_e5b9);
        word = (word ^ word >> 27).wrapping_mul(0x94d0_49bb_1331_11eb);
        word ^ word >> 31
    }

    /// A number below the bound; the small bounds here make the bias of no account.
    pub fn below(&mut self, bound: usize) -> usize {
        (self.word() % bound as u64) as usize
    }

    pub fn shuffle<T>(&mut self, items: &mut [T]) {
        for last in (1..items.len()).rev() {
            items.swap(last, self.below(last + 1));
        }
    }

    fn permutation<const N: usize>(&mut self) -> [usize; N] {
        let mut items = std::array::from_fn(|item| item);
        self.shuffle(&mut items);
        items
    }

    /// Nine lines in three bands: the bands are permuted, and the lines within each.
    fn lines(&mut self) -> [usize; 9] {
        let bands: [usize; 3] = self.permutation();
        let within: [[usize; 3]; 3] = std::array::from_fn(|_| self.permutation());
        std::array::from_fn(|line| 3 * bands[line / 3] + within[line / 3][line % 3])
    }

    pub fn order(&mut self) -> Vec<i16> {
        let mut order = default_order();
        self.shuffle(&mut order);
        order
    }

    /// Orders of four kinds: the default, digit by digit, row by row with the negative literals of a
    /// row after its positive ones, and shuffled.
    pub fn orders(&mut self) -> [Vec<i16>; 4] {
        let [mut by_digit, mut by_row] = [default_order(), default_order()];
        by_digit.sort_by_key(|literal| (literal.abs() - 1) % 9);
        by_row.sort_by_key(|literal| ((literal.abs() - 1) / 81, *literal < 0));
        [default_order(), by_digit, by_row, self.order()]
    }

    /// A completion of a named grid, turned.
    pub fn full(&mut self) -> Grid {
        let base = BASES[self.below(BASES.len())];
        self.turned(&base)
    }

    /// The grid with its digits, rows and columns permuted, and rows perhaps changed for columns:
    /// its completions are turned the same way.
    pub fn turned(&mut self, grid: &Grid) -> Grid {
        let digits: [usize; 9] = self.permutation();
        let (rows, columns) = (self.lines(), self.lines());
        let flipped = self.below(2) == 1;
        std::array::from_fn(|cell| {
            let (mut row, mut column) = (rows[cell / 9], columns[cell % 9]);
            if flipped {
                (row, column) = (column, row);
            }
            match grid[9 * row + column] {
                given if is_given(given) => b'1' + digits[usize::from(given - b'1')] as u8,
                blank => blank,
            }
        })
    }

    /// The grid with as many of its cells blanked, as `0` or as `.`.
    pub fn blanked(&mut self, mut grid: Grid, blanks: usize) -> Grid {
        let cells: [usize; CELLS] = self.permutation();
        for &cell in &cells[..blanks] {
            grid[cell] = self.blank();
        }
        grid
    }

    /// The grid without so many of its givens.
    pub fn without(&mut self, grid: Grid, givens: usize) -> Grid {
        let mut less = grid;
        let cells = self.permutation::<CELLS>().into_iter();
        for cell in cells.filter(|&cell| is_given(grid[cell])).take(givens) {
            less[cell] = self.blank();
        }
        less
    }

    /// The grid, which has a blank, with any digit in one of its blanks.
    pub fn damaged(&mut self, mut grid: Grid) -> Grid {
        let blanks: Vec<usize> = (0..CELLS).filter(|&cell| !is_given(grid[cell])).collect();
        grid[blanks[self.below(blanks.len())]] = b'1' + self.below(9) as u8;
        grid
    }

    fn blank(&mut self) -> u8 {
        [b'0', b'.'][self.below(2)]
    }

    /// A grid with one completion: cells are blanked while it stays the only one.
    pub fn with_one(&mut self, blanks: usize) -> Grid {
        let mut grid = self.full();
        let mut left = blanks;
        for cell in self.permutation::<CELLS>() {
            let mut less = grid;
            less[cell] = self.blank();
            if left > 0 && smallest_two(&less).len() == 1 {
                grid = less;
                left -= 1;
            }
        }
        grid
    }

    /// A grid with several completions: givens leave a grid with one until there is another.
    pub fn with_several(&mut self, blanks: usize) -> Grid {
        let grid = self.with_one(blanks);
        self.thinned(grid)
    }

    /// The grid without some of its givens, the last of which leaves it several completions.
    pub fn thinned(&mut self, mut grid: Grid) -> Grid {
        for cell in self.permutation::<CELLS>() {
            if smallest_two(&grid).len() == 2 {
                break;
            }
            grid[cell] = self.blank();
        }
        grid
    }

    /// A grid with no completion: one blank of a grid with one gets a wrong given.
    pub fn with_none(&mut self, blanks: usize) -> Grid {
        let mut grid = self.with_one(blanks.max(1));
        let only = smallest_two(&grid)[0];
        let open: Vec<usize> = (0..CELLS).filter(|&cell| !is_given(grid[cell])).collect();
        let cell = open[self.below(open.len())];
        let step = 1 + self.below(8) as u8;
        grid[cell] = b'1' + (only[cell] - b'1' + step) % 9;
        grid
    }

    /// The grid, which has one completion, with a wrong given that no house of its cell has; as it is
    /// where there is no such given.
    pub fn spoiled(&mut self, mut grid: Grid) -> Grid {
        let only = smallest_two(&grid)[0];
        let open = (0..CELLS).filter(|&cell| !is_given(grid[cell]));
        let wrong = open.flat_map(|cell| (b'1'..=b'9').map(move |digit| (cell, digit)));
        let mut wrong: Vec<(usize, u8)> = wrong
            .filter(|&(cell, digit)| {
                let mut houses = HOUSES.iter().filter(|house| house.contains(&cell));
                let has = |house: &[usize; 9]| house.iter().any(|&other| grid[other] == digit);
                digit != only[cell] && !houses.any(has)
            })
            .collect();
        self.shuffle(&mut wrong);
        if let Some(&(cell, digit)) = wrong.first() {
            grid[cell] = digit;
        }
        grid
    }

    /// A grid with one completion and few givens: the one with the fewest of eight, each of which
    /// needs all of its givens.
    pub fn with_few(&mut self) -> Grid {
        let minimal: [Grid; 8] = std::array::from_fn(|_| self.with_one(CELLS));
        let givens = |grid: &Grid| grid.iter().filter(|&&byte| is_given(byte)).count();
        minimal.into_iter().min_by_key(givens).unwrap_or(*G)
    }
}
