//! The order in which job, search, grading and batch test their refusals, the lengths of the lent
//! buffers at their boundaries, and that a refused call changes no buffer.

use reference::batch::batch;
use reference::cases::G;
use reference::grading::grade;
use reference::job::job;
use reference::order::default_order;
use reference::refusal::Refusal;
use reference::search::search;

/// A buffer that a refused call must leave as it is.
const FILL: u8 = 77;

fn refused<A>(answer: Result<A, Refusal>) -> Option<(u8, usize)> {
    answer.err().map(|refusal| (refusal.number, refusal.place))
}

/// Faults from the first that is tested to the last: with the first n mended, the next one shows.
struct Faults {
    grid: Vec<u8>,
    technique: u32,
    order: Vec<i16>,
}

impl Faults {
    /// Mends what refusals 11, 12, 21, 22, 23, 24 name, for those in `mended`.
    fn without(mended: &[u8]) -> Faults {
        let has = |number: u8| !mended.contains(&number);
        let mut grid = G.to_vec();
        if has(12) {
            grid[17] = b'x';
        }
        if has(11) {
            grid.push(b'1');
        }
        let mut order = default_order();
        if has(23) {
            order[900] = 730;
        }
        if has(24) {
            order[5] = order[4];
        }
        if has(22) {
            order.pop();
        }
        let technique = if has(21) { 5 } else { 1 };
        Faults {
            grid,
            technique,
            order,
        }
    }
}

/// The places of the faults, with 0 where none is named.
fn place(number: u8) -> usize {
    match number {
        12 => 17,
        23 => 900,
        24 => 5,
        _ => 0,
    }
}

/// Runs a call with ever more faults mended; each time the next number of the list is refused.
fn ladder(numbers: &[u8], call: impl Fn(&[u8]) -> Option<(u8, usize)>) {
    for step in 0..numbers.len() {
        let expected = (numbers[step], place(numbers[step]));
        assert_eq!(call(&numbers[..step]), Some(expected));
    }
    assert_eq!(call(numbers), None);
}

#[test]
fn job_order_of_refusals() {
    for length in [0, 728, 730, 1_458] {
        ladder(&[41, 11, 12, 21, 22, 23, 24], |mended| {
            let faults = Faults::without(mended);
            let length = if mended.contains(&41) { 729 } else { length };
            let mut marks = vec![FILL; length];
            let answer = job(&faults.grid, faults.technique, &faults.order, 0, &mut marks);
            assert_eq!(answer.is_err(), marks == vec![FILL; length]);
            refused(answer)
        });
    }
    for (technique, expected) in [(0, Some((21, 0))), (1, None), (4, None), (5, Some((21, 0)))] {
        let answer = job(G, technique, &default_order(), 0, &mut [0; 729]);
        assert_eq!(refused(answer), expected);
    }
    for technique in [257, u32::MAX] {
        let answer = job(G, technique, &default_order(), 0, &mut [0; 729]);
        assert_eq!(refused(answer), Some((21, 0)));
    }
}

#[test]
fn search_order_of_refusals() {
    for lengths in [
        (80, 81),
        (81, 80),
        (82, 81),
        (81, 82),
        (0, 81),
        (81, 0),
        (0, 0),
    ] {
        ladder(&[42, 11, 12], |mended| {
            let faults = Faults::without(mended);
            let (one, other) = if mended.contains(&42) {
                (81, 81)
            } else {
                lengths
            };
            let (mut first, mut second) = (vec![FILL; one], vec![FILL; other]);
            let answer = search(&faults.grid, &mut first, &mut second);
            assert_eq!(answer.is_err(), first == vec![FILL; one]);
            assert_eq!(answer.is_err(), second == vec![FILL; other]);
            refused(answer)
        });
    }
}

#[test]
fn grading_order_of_refusals() {
    for length in [0, 80, 82, 162] {
        ladder(&[42, 11, 12, 22, 23, 24], |mended| {
            let faults = Faults::without(mended);
            let length = if mended.contains(&42) { 81 } else { length };
            let mut completion = vec![FILL; length];
            let answer = grade(&faults.grid, &faults.order, 0, &mut completion);
            assert_eq!(answer.is_err(), completion == vec![FILL; length]);
            refused(answer)
        });
    }
}

#[test]
fn batch_order_of_refusals() {
    for bytes in [0, 1, 80, 82, 161, 5_183, 5_185, 5_265, 81 * 128] {
        ladder(&[47, 41, 48, 12, 21, 22, 23, 24], |mended| {
            let faults = Faults::without(mended);
            let length = if mended.contains(&47) { 64 * 81 } else { bytes };
            let mut grids = G.repeat(130);
            grids[17] = faults.grid[17];
            let marks_length = if mended.contains(&41) { 64 * 729 } else { 729 };
            let answers_length = if mended.contains(&48) { 128 } else { 64 };
            let (mut marks, mut answers) = (vec![FILL; marks_length], vec![99; answers_length]);
            let answer = batch(
                &grids[..length],
                faults.technique,
                &faults.order,
                0,
                &mut marks,
                &mut answers,
            );
            assert_eq!(answer.is_err(), marks == vec![FILL; marks_length]);
            assert_eq!(answer.is_err(), answers == vec![99; answers_length]);
            refused(answer)
        });
    }
}

#[test]
fn batch_lengths_and_places() {
    let order = default_order();
    let refused_at = |grids: &[u8], marks: usize, answers: usize| {
        refused(batch(
            grids,
            1,
            &order,
            0,
            &mut vec![0; marks],
            &mut vec![0; answers],
        ))
    };
    for length in 1..=64 {
        let grids = G.repeat(length);
        assert_eq!(refused_at(&grids, 729 * length, 2 * length), None);
        for marks in [729 * length - 1, 729 * length + 1, 729 * (length + 1)] {
            assert_eq!(refused_at(&grids, marks, 2 * length), Some((41, 0)));
        }
        for answers in [2 * length - 1, 2 * length + 1, 0] {
            assert_eq!(refused_at(&grids, 729 * length, answers), Some((48, 0)));
        }
    }
    let mut grids = G.repeat(64);
    (grids[5_183], grids[3_000]) = (b'\n', b' ');
    assert_eq!(refused_at(&grids, 729 * 64, 128), Some((12, 3_000)));
    grids[3_000] = b'.';
    assert_eq!(refused_at(&grids, 729 * 64, 128), Some((12, 5_183)));
}
