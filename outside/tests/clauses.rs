//! The clause sets: family ranges, literal order, sizes, and what the clauses say as a whole; and
//! the fast clause call of the bench beside the plain one.

use reference::clauses::{clause, clause_set};
use reference::packed::pack;
use reference::plain;
use reference::refusal::Refusal;
use std::collections::BTreeSet;

fn literals(set: u32, number: u32) -> Vec<i16> {
    let mut literals = [99; 9];
    let length = clause(set, number, &mut literals).expect("the number is in the set");
    assert!(literals[usize::from(length)..]
        .iter()
        .all(|&padding| padding == 0));
    literals[..usize::from(length)].to_vec()
}

#[test]
fn first_and_last_of_each_family() {
    let by = |first: i16, step: i16| (0..9).map(|k| first + step * k).collect::<Vec<i16>>();
    let first_box = vec![1, 10, 19, 82, 91, 100, 163, 172, 181];
    let last_box = vec![549, 558, 567, 630, 639, 648, 711, 720, 729];
    let rows = [
        (0, by(1, 1), 80, by(721, 1)),
        (81, vec![-1, -82], 2_996, vec![-648, -729]),
        (2_997, vec![-1, -10], 5_912, vec![-720, -729]),
        (5_913, vec![-1, -10], 6_641, vec![-720, -729]),
        (6_642, vec![-1, -82], 8_828, vec![-648, -729]),
        (8_829, vec![-1, -2], 11_744, vec![-728, -729]),
        (11_745, by(1, 81), 11_825, by(81, 81)),
        (11_826, by(1, 9), 11_906, by(657, 9)),
        (11_907, first_box, 11_987, last_box),
    ];
    for (first, of_first, last, of_last) in rows {
        assert_eq!(literals(2, first), of_first, "number {first}");
        assert_eq!(literals(2, last), of_last, "number {last}");
    }
}

/// One clause inside each family, by its indices.
#[test]
fn index_order_within_families() {
    let v = |x: i16, y: i16, z: i16| 81 * (x - 1) + 9 * (y - 1) + z;
    // F2 (y,z,x,i) = (1,1,2,3): after the eight pairs of x = 1.
    assert_eq!(literals(2, 81 + 8), [-v(2, 1, 1), -v(3, 1, 1)]);
    // F2 (1,2,1,2): the next digit comes before the next column.
    assert_eq!(literals(2, 81 + 36), [-v(1, 1, 2), -v(2, 1, 2)]);
    // F3 (x,z,y,i) = (2,1,1,2).
    assert_eq!(literals(2, 2_997 + 324), [-v(2, 1, 1), -v(2, 2, 1)]);
    // F4 (z,a,b,x,y,k) = (1,0,1,2,1,3).
    assert_eq!(literals(2, 5_913 + 9 + 4), [-v(2, 4, 1), -v(2, 6, 1)]);
    // F5 (z,a,b,x,y,k,l) = (2,1,0,1,2,3,1).
    assert_eq!(literals(2, 6_642 + 27 * 12 + 9), [-v(4, 2, 2), -v(6, 1, 2)]);
    // F6 (x,y,z,i) = (1,2,8,9).
    assert_eq!(literals(2, 8_829 + 71), [-v(1, 2, 8), -v(1, 2, 9)]);
    // F9 (z,a,b) = (1,0,1): places row by row.
    let places = [1, 2, 3].map(|x| [4, 5, 6].map(|y| v(x, y, 1)));
    assert_eq!(literals(2, 11_907 + 1), places.concat());
}

#[test]
fn sizes() {
    for (set, nine, two) in [(1, 81, 8_748), (2, 324, 11_664)] {
        let lengths: Vec<usize> = clause_set(set)
            .unwrap()
            .iter()
            .map(|clause| clause.literals().len())
            .collect();
        assert_eq!(lengths.len(), nine + two);
        assert_eq!(lengths.iter().filter(|&&length| length == 9).count(), nine);
        assert_eq!(lengths.iter().filter(|&&length| length == 2).count(), two);
    }
    assert_eq!(clause_set(2).unwrap()[..8_829], *clause_set(1).unwrap());
}

/// The two-literal clauses are exactly the pairs of one digit in two cells of a house and, in set
/// 2, of two digits in one cell; in the houses' rule equal clauses count once.
#[test]
fn pairs_are_the_conflicts() {
    for set in [1, 2] {
        let two = |clause: &&[i16]| clause.len() == 2;
        let of_set = clause_set(set)
            .unwrap()
            .iter()
            .map(|clause| clause.literals());
        let pairs: BTreeSet<Vec<i16>> = of_set.filter(two).map(<[i16]>::to_vec).collect();
        let mut conflicts = BTreeSet::new();
        for first in 0..729 {
            for second in first + 1..729 {
                let (x, y, z) = (first / 81, first / 9 % 9, first % 9);
                let (i, k, l) = (second / 81, second / 9 % 9, second % 9);
                let cell = x == i && y == k;
                let house = x == i || y == k || (x / 3 == i / 3 && y / 3 == k / 3);
                if !cell && house && z == l || set == 2 && cell {
                    conflicts.insert(vec![-1 - first, -1 - second]);
                }
            }
        }
        assert_eq!(pairs, conflicts);
    }
}

#[test]
fn equal_clauses_keep_their_numbers() {
    assert_eq!(literals(1, 2_997), literals(1, 5_913));
    assert_eq!(literals(1, 81 + 8), literals(1, 6_642 + 18));
    let distinct: BTreeSet<&[i16]> = clause_set(1)
        .unwrap()
        .iter()
        .map(|clause| clause.literals())
        .collect();
    // All 729 clauses of F4 stand in F3 too, and of F5's 27 a box 9 lie in one column and in F2.
    assert_eq!(distinct.len(), 8_829 - 729 - 729);
}

#[test]
fn plain_call_equals_clause_call() {
    for set in (0..=4).chain([255, 257, 258, 65_537, u32::MAX]) {
        for number in (0..12_100).chain([65_536, 1 << 31, u32::MAX]) {
            for length in [0, 8, 9, 10] {
                let (mut one, mut other) = (vec![-5; length], vec![-5; length]);
                let answer = clause(set, number, &mut one);
                assert_eq!(plain::clause(set, number, &mut other), pack(answer));
                assert_eq!(one, other);
            }
        }
    }
}

#[test]
fn packed_answers() {
    assert_eq!(pack(Ok(9)), 0x0009_0000_0000_0000);
    assert_eq!(pack(Err(Refusal::at(12, 80))), 0x0c00_0000_0000_0050);
}
