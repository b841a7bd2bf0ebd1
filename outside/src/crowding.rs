//! Crowded houses: where some digits have fewer cells of a house left between them than they are,
//! nothing fits boards.

use crate::boards::{bits, Boards};

impl Boards {
    /// Whether some house is crowded.
    #[inline(never)]
    pub fn is_crowded(&self) -> bool {
        (0..9).any(|k| {
            let (third, shift) = (k / 3, k % 3);
            let row = self.words.map(|bands| bands[third] >> (9 * shift) & 511);
            let of_box = self.words.map(|bands| {
                let cells = bands[third] >> (3 * shift) & 0o7_007_007;
                (cells | cells >> 6 | cells >> 12) & 511
            });
            let column = self.words.map(|bands| {
                let [top, middle, bottom, _] = bands.map(|band| {
                    let cells = band >> k & 0o1_001_001;
                    (cells | cells >> 8 | cells >> 16) & 7
                });
                top | middle << 3 | bottom << 6
            });
            !matched(&row) || !matched(&of_box) || !matched(&column)
        })
    }
}

/// Whether nine digits can each have a cell of their own, among those that each may stand in. Each
/// digit in turn gets a free cell, or that of a digit which can move to another.
fn matched(cells: &[u32; 9]) -> bool {
    let mut owner = [9; 9];
    let mut free = 511;
    for digit in 0..9 {
        // by a cell, the digit that came to it
        let mut from = [digit; 9];
        let mut reached = cells[digit];
        let mut fresh = reached;
        while reached & free == 0 {
            let Some(cell) = bits(fresh).next() else {
                return false;
            };
            fresh &= fresh - 1;
            let more = cells[owner[cell]] & !reached;
            reached |= more;
            fresh |= more;
            for other in bits(more) {
                from[other] = owner[cell];
            }
        }
        let mut cell = (reached & free).trailing_zeros() as usize;
        free &= !(1 << cell);
        while from[cell] != digit {
            let moved = from[cell];
            let own = owner.iter().position(|&other| other == moved);
            owner[cell] = moved;
            cell = own.unwrap_or(cell);
        }
        owner[cell] = digit;
    }
    true
}
