//! The clause call, the grid check and the order check: every refusal at its boundaries and with
//! its place, and what is accepted beside it.

use reference::cases::G;
use reference::clauses::clause;
use reference::grid;
use reference::order::{self, default_order};
use reference::refusal::Refusal;

/// The refusal's number, 0 for none; the buffer is unchanged exactly on refusal.
fn clause_refused(set: u32, number: u32, length: usize) -> u8 {
    let mut literals = vec![99; length];
    let answer = clause(set, number, &mut literals);
    assert_eq!(answer.is_err(), literals == vec![99; length]);
    answer.err().map_or(0, |refusal| {
        assert_eq!(refusal.place, 0);
        refusal.number
    })
}

#[test]
fn clause_call() {
    for (set, number, length, expected) in [
        (1, 0, 9, 0),
        (1, 8_828, 9, 0),
        (2, 8_829, 9, 0),
        (2, 11_987, 9, 0),
        (1, 8_829, 9, 44),
        (2, 11_988, 9, 44),
        (1, u32::MAX, 9, 44),
        (2, 65_536, 9, 44),
        (1, 0, 8, 45),
        (1, 0, 10, 45),
        (2, 11_987, 0, 45),
        (1, 8_829, 8, 44),
        (2, 11_988, 10, 44),
    ] {
        assert_eq!(clause_refused(set, number, length), expected);
    }
    for set in [0, 3, 257, 65_537, u32::MAX] {
        for (number, length) in [(0, 9), (11_988, 9), (0, 8), (11_988, 8)] {
            assert_eq!(clause_refused(set, number, length), 43);
        }
    }
}

#[test]
fn grid_check() {
    for length in [0, 1, 80, 82, 162, 10_000] {
        assert_eq!(grid::check(&vec![b'x'; length]), Err(Refusal::new(11)));
    }
    for place in 0..81 {
        for byte in 0..=255 {
            let mut grid = *G;
            grid[place] = byte;
            let good = b".0123456789".contains(&byte);
            let expected = if good {
                Ok(())
            } else {
                Err(Refusal::at(12, place))
            };
            assert_eq!(grid::check(&grid), expected);
        }
    }
    let mut grid = *G;
    (grid[80], grid[30], grid[50]) = (b'/', b':', 0);
    assert_eq!(grid::check(&grid), Err(Refusal::at(12, 30)));
}

#[test]
fn order_check() {
    assert_eq!(order::check(&default_order()), Ok(()));
    for length in [0, 1, 1_457, 1_459, 2_916] {
        assert_eq!(order::check(&vec![0; length]), Err(Refusal::new(22)));
    }
    for (place, entry, number) in [
        (0, 0, 23),
        (1_457, 0, 23),
        (700, 730, 23),
        (700, -730, 23),
        (700, i16::MIN, 23),
        (700, i16::MAX, 23),
        // An earlier place holds the same entry.
        (700, 1, 24),
        (1_457, 729, 24),
        (1, 1, 24),
    ] {
        let mut order = default_order();
        order[place] = entry;
        assert_eq!(order::check(&order), Err(Refusal::at(number, place)));
    }
    let mut order = default_order();
    // The later of two equal entries counts, so −729's own place.
    order[700] = -729;
    assert_eq!(order::check(&order), Err(Refusal::at(24, 1_457)));
    // All of 23 comes before 24, and of each the first place counts.
    (order[3], order[1_000], order[1_001]) = (order[2], 0, 730);
    assert_eq!(order::check(&order), Err(Refusal::at(23, 1_000)));
}
