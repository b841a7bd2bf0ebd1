//! The simple loop and the fast one give the same jobs: outcome, count and marks on grids of all
//! kinds, by every technique, under orders of all kinds and ceilings at which a job can end.

use reference::cases::{named, Grid, Random, VERDICT_FOUR};
use reference::{plain_job, simple_job};

type JobCall =
    fn(&[u8], u32, &[i16], u32, &mut [u8]) -> Result<(u8, u32), reference::refusal::Refusal>;

/// One job by both, and how many trials it takes; the marks start from a byte that is no mark.
fn same(grid: &Grid, technique: u32, order: &[i16], ceiling: u32) -> u32 {
    let calls: [JobCall; 2] = [simple_job::job, plain_job::job];
    let [simple, fast] = calls.map(|call| {
        let mut marks = [77; 729];
        (call(grid, technique, order, ceiling, &mut marks), marks)
    });
    assert_eq!(simple, fast);
    simple.0.map_or(0, |(_, count)| count)
}

#[test]
fn same_jobs() {
    let mut random = Random(17);
    let mut grids = named();
    grids.push(*VERDICT_FOUR);
    for round in 0..40 {
        let full = random.full();
        grids.push(random.blanked(full, 40 + round));
        grids.push(random.with_none(30 + round));
        grids.push(random.with_one(41 + round));
        grids.push(random.with_several(41 + round));
    }
    for grid in grids {
        for technique in 1..=4 {
            for order in random.orders() {
                let exact = same(&grid, technique, &order, u32::MAX);
                let within = random.below(exact as usize + 1) as u32;
                for ceiling in [0, 1, within, exact.saturating_sub(1), exact, exact + 1] {
                    same(&grid, technique, &order, ceiling);
                }
            }
        }
    }
}
