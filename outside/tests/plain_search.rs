//! The plain search and the plain grading give what the reference's give: answers and buffers on
//! grids of all kinds, and every refusal, with the buffers unchanged. The other two searches find the
//! same completions.

use reference::cases::{bad, named, published, slow, Grid, Random, AI_ESCARGOT, G, VERDICT_FOUR};
use reference::grading::grade;
use reference::order::default_order;
use reference::plain_search;
use reference::search::{search, smallest_two};
use reference::{closure_search, masks};

/// One search by both; the buffers start from a byte that no search writes.
fn same_search(grid: &[u8], lengths: [usize; 2]) {
    let [mut ours, mut theirs] = [(); 2].map(|()| lengths.map(|length| vec![77; length]));
    let [first, second] = &mut ours;
    let reference = search(grid, first, second).map(|completions| completions as u8);
    let [first, second] = &mut theirs;
    assert_eq!(plain_search::search(grid, first, second), reference);
    assert_eq!(theirs, ours);
}

fn same_grading(grid: &[u8], order: &[i16], ceiling: u32, length: usize) {
    let (mut ours, mut theirs) = (vec![77; length], vec![77; length]);
    let reference =
        grade(grid, order, ceiling, &mut ours).map(|grade| (grade.verdict, grade.trials));
    let plain = plain_search::grade(grid, order, ceiling, &mut theirs);
    assert_eq!(plain, reference);
    assert_eq!(theirs, ours);
}

/// The number of completions that all four searches find.
fn same_completions(grid: &Grid) -> usize {
    let found = smallest_two(grid);
    let shown = String::from_utf8_lossy(grid);
    assert_eq!(plain_search::smallest_two(grid), found, "plain: {shown}");
    assert_eq!(
        closure_search::smallest_two(grid),
        found,
        "closures: {shown}"
    );
    assert_eq!(masks::smallest_two(grid), found, "masks: {shown}");
    found.len()
}

#[test]
fn same_answers() {
    let mut random = Random(16);
    let mut grids: Vec<Grid> = named();
    grids.push(*VERDICT_FOUR);
    for round in 0..30 {
        let full = random.full();
        grids.push(random.blanked(full, 40 + round));
        grids.push(random.with_none(40 + round));
        grids.push(random.with_one(40 + round));
    }
    for grid in grids {
        same_search(&grid, [81; 2]);
        for ceiling in [0, 1, 2_573, 2_574, u32::MAX] {
            same_grading(&grid, &default_order(), ceiling, 81);
            same_grading(&grid, &random.order(), ceiling, 81);
        }
    }
}

#[test]
fn same_refusals() {
    let order = default_order();
    for length in [0, 80, 82] {
        same_search(&G[..80], [length, 81]);
        same_search(&G[..80], [81, length]);
        same_grading(&G[..80], &order, 0, length);
    }
    let mut no_grid = *AI_ESCARGOT;
    no_grid[80] = b'x';
    for grid in [&G[..80], &no_grid] {
        same_search(grid, [81; 2]);
        same_grading(grid, &order[1..], 0, 81);
    }
    same_grading(G, &order[1..], 0, 81);
    for entry in [0, 730, 1] {
        let mut broken = order.clone();
        broken[700] = entry;
        same_grading(G, &broken, 0, 81);
    }
}

/// Full grids, blank ones, minimal ones, ones with several completions or none, published ones, and
/// damaged ones: bytes changed to other givens.
#[test]
fn same_searches() {
    let mut random = Random(17);
    let mut grids = vec![*G, [b'.'; 81], [b'0'; 81]];
    for round in 0..81 {
        let full = random.full();
        grids.push(full);
        grids.push(random.blanked(full, round));
        let one = random.with_one(81);
        grids.extend([one, random.thinned(one), random.spoiled(one)]);
    }
    for grid in published() {
        let damaged = std::array::from_fn(|cell| match random.below(40) {
            0 => b'1' + random.below(9) as u8,
            _ => grid[cell],
        });
        grids.extend([grid, random.turned(&grid), damaged]);
    }
    let mut kinds = [0; 3];
    for grid in &grids {
        kinds[same_completions(grid)] += 1;
    }
    assert!(kinds.iter().all(|&cases| cases > 100), "{kinds:?}");
}

/// On grids made to hurt a search, where the reference takes long and the masks longer, the other two
/// agree.
#[test]
fn same_searches_of_bad_grids() {
    for grid in [bad(), slow()].concat() {
        let found = closure_search::smallest_two(&grid);
        assert_eq!(plain_search::smallest_two(&grid), found);
    }
}

#[test]
fn published_grids_have_one_completion() {
    let grids = published();
    for grid in &grids {
        assert_eq!(smallest_two(grid).len(), 1);
    }
    let dotted = AI_ESCARGOT.map(|byte| if byte == b'0' { b'.' } else { byte });
    assert!(grids.contains(&dotted));
}
