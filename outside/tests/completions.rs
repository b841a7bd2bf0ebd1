//! The completion test and the search, beside a listing of all completions by trying every digit in
//! every open cell.

use reference::cases::{named, Grid, Random, G};
use reference::grid::{is_completion, is_given, HOUSES};
use reference::refusal::Refusal;
use reference::search::{search, Completions};
use std::collections::BTreeSet;

/// All completions in byte order, for a grid with few.
fn all_completions(grid: Grid) -> Vec<Grid> {
    let Some(cell) = grid.iter().position(|&byte| byte == b'0' || byte == b'.') else {
        return if is_completion(&grid, &grid) == Ok(true) {
            vec![grid]
        } else {
            vec![]
        };
    };
    let mut found = vec![];
    for digit in b'1'..=b'9' {
        let clash = |house: &[usize; 9]| house.iter().any(|&other| grid[other] == digit);
        let mut houses = HOUSES.iter().filter(|house| house.contains(&cell));
        if !houses.any(clash) {
            let mut next = grid;
            next[cell] = digit;
            found.extend(all_completions(next));
        }
    }
    found
}

fn searched(grid: &[u8]) -> (Completions, Grid, Grid) {
    let (mut first, mut second) = ([77; 81], [77; 81]);
    let answer = search(grid, &mut first, &mut second).expect("the input is well formed");
    (answer, first, second)
}

#[test]
fn search_finds_the_smallest_two() {
    let mut random = Random(6);
    let mut kinds = [0; 3];
    for round in 0..60 {
        let full = random.full();
        for grid in [
            random.with_none(20 + round % 25),
            random.with_one(20 + round % 25),
            random.with_several(20 + round % 25),
            random.blanked(full, 20 + round % 25),
        ] {
            let all = all_completions(grid);
            let (answer, first, second) = searched(&grid);
            kinds[answer as usize] += 1;
            assert_eq!(answer as usize, all.len().min(2));
            assert_eq!(first, all.first().copied().unwrap_or([0; 81]));
            assert_eq!(second, all.get(1).copied().unwrap_or([0; 81]));
        }
    }
    assert!(kinds.iter().all(|&cases| cases >= 60));
}

#[test]
fn search_of_named_grids() {
    let sizes: Vec<usize> = named()
        .iter()
        .map(|grid| searched(grid).0 as usize)
        .collect();
    assert_eq!(sizes, [1, 1, 1, 2, 2, 0, 2, 0, 1, 1, 1, 1, 1, 1, 1, 1, 1]);
    let (_, first, second) = searched(&[b'.'; 81]);
    for found in [first, second] {
        assert_eq!(is_completion(&[b'.'; 81], &found), Ok(true));
    }
    assert!(first.starts_with(b"123456789456789123") && first < second);
}

#[test]
fn completion_test() {
    let mut grid = *G;
    grid[40] = b'.';
    grid[41] = b'0';
    assert_eq!(is_completion(G, G), Ok(true));
    assert_eq!(is_completion(&grid, G), Ok(true));
    for place in 0..81 {
        for byte in 0..=255 {
            let mut other = *G;
            other[place] = byte;
            let same = byte == G[place];
            assert_eq!(is_completion(&[b'.'; 81], &other), Ok(same));
            let expected = match byte {
                b'0' | b'.' => Ok(true),
                given if is_given(given) => Ok(same),
                _ => Err(Refusal::at(12, place)),
            };
            assert_eq!(is_completion(&other, G), expected);
            assert_eq!(is_completion(&other, b""), expected.map(|_| false));
        }
    }
    let long = [&G[..], &G[..]].concat();
    for wrong in [&long[..0], &long[..80], &long[..82], &long, &[b'x'; 80]] {
        assert_eq!(is_completion(G, wrong), Ok(false));
        for candidate in [G, wrong] {
            assert_eq!(is_completion(wrong, candidate), Err(Refusal::new(11)));
        }
    }
}

/// Each house has nine cells, and each cell lies in one row, one column and one box.
#[test]
fn houses() {
    for (kind, nine) in HOUSES.chunks(9).enumerate() {
        for (which, house) in nine.iter().enumerate() {
            for &cell in house {
                let (row, column) = (cell / 9, cell % 9);
                assert_eq!([row, column, row / 3 * 3 + column / 3][kind], which);
            }
        }
        let cells: BTreeSet<usize> = nine.iter().flatten().copied().collect();
        assert_eq!(cells, (0..81).collect());
    }
}
