//! The clause call by arithmetic, written for speed: the bench times the proved call beside it.
//! A clause is a base variable plus offsets, and offsets that repeat stand in small tables.

use crate::packed::pack;
use crate::refusal::Refusal;

const MINIMAL: u32 = 8_829;
const EXTENDED: u32 = 11_988;

/// The 36 pairs of two of nine, the lower first, in rising order.
const PAIRS: [[i16; 2]; 36] = {
    let mut pairs = [[0; 2]; 36];
    let (mut next, mut low) = (0, 0);
    while low < 9 {
        let mut high = low + 1;
        while high < 9 {
            pairs[next] = [low, high];
            next += 1;
            high += 1;
        }
        low += 1;
    }
    pairs
};

/// The offset of a place of a box, counted row by row from 0.
const PLACES: [i16; 9] = [0, 9, 18, 81, 90, 99, 162, 171, 180];

/// The pairs of places of one box in the same row, as F4 lists them.
const SAME_ROW: [[i16; 2]; 9] = {
    let mut pairs = [[0; 2]; 9];
    let mut next = 0;
    while next < 9 {
        let (row, columns) = (3 * (next / 3), [[0, 1], [0, 2], [1, 2]][next % 3]);
        pairs[next] = [PLACES[row + columns[0]], PLACES[row + columns[1]]];
        next += 1;
    }
    pairs
};

/// The pairs of places of one box in two rows, as F5 lists them.
const TWO_ROWS: [[i16; 2]; 27] = {
    let mut pairs = [[0; 2]; 27];
    let (mut next, mut one) = (0, 0);
    while one < 6 {
        let mut other = 3 * (one / 3) + 3;
        while other < 9 {
            pairs[next] = [PLACES[one], PLACES[other]];
            next += 1;
            other += 1;
        }
        one += 1;
    }
    pairs
};

/// The same answers, refusals and literals as the clause call, with the answer packed.
#[inline(never)]
pub fn clause(set: u32, number: u32, literals: &mut [i16]) -> u64 {
    let limit = match set {
        1 => MINIMAL,
        2 => EXTENDED,
        _ => return refused(43),
    };
    if number >= limit {
        return refused(44);
    }
    let Ok(literals) = <&mut [i16; 9]>::try_from(literals) else {
        return refused(45);
    };
    let n = number as u16;
    match n {
        0..81 => nine(literals, 9 * n + 1, |k| k),
        81..2_997 => {
            let (q, pair) = ((n - 81) / 36, PAIRS[usize::from((n - 81) % 36)]);
            two(literals, 9 * (q / 9) + q % 9 + 1, pair.map(|k| 81 * k))
        }
        2_997..5_913 => {
            let (q, pair) = ((n - 2_997) / 36, PAIRS[usize::from((n - 2_997) % 36)]);
            two(literals, 81 * (q / 9) + q % 9 + 1, pair.map(|k| 9 * k))
        }
        5_913..6_642 => {
            let r = n - 5_913;
            two(literals, box_base(r / 9), SAME_ROW[usize::from(r % 9)])
        }
        6_642..8_829 => {
            let r = n - 6_642;
            two(literals, box_base(r / 27), TWO_ROWS[usize::from(r % 27)])
        }
        8_829..11_745 => {
            let r = n - 8_829;
            two(literals, 9 * (r / 36) + 1, PAIRS[usize::from(r % 36)])
        }
        11_745..11_826 => {
            let q = n - 11_745;
            nine(literals, 9 * (q / 9) + q % 9 + 1, |k| 81 * k)
        }
        11_826..11_907 => {
            let q = n - 11_826;
            nine(literals, 81 * (q / 9) + q % 9 + 1, |k| 9 * k)
        }
        _ => nine(literals, box_base(n - 11_907), |k| PLACES[k as usize]),
    }
}

fn refused(number: u8) -> u64 {
    pack(Err(Refusal::new(number)))
}

/// The variable at place (1,1) of the q-th of (z,a,b) in rising order.
fn box_base(q: u16) -> u16 {
    243 * (q % 9 / 3) + 27 * (q % 3) + q / 9 + 1
}

#[inline(always)]
fn two(literals: &mut [i16; 9], base: u16, offsets: [i16; 2]) -> u64 {
    let base = base as i16;
    *literals = [-base - offsets[0], -base - offsets[1], 0, 0, 0, 0, 0, 0, 0];
    pack(Ok(2))
}

#[inline(always)]
fn nine(literals: &mut [i16; 9], base: u16, offset: impl Fn(i16) -> i16) -> u64 {
    for (k, literal) in (0..9).zip(literals) {
        *literal = base as i16 + offset(k);
    }
    pack(Ok(9))
}
