//! The plain job call gives what the reference's gives: outcome, count and marks on grids of all
//! kinds, and every refusal, with the buffer unchanged.

use reference::cases::{named, Grid, Random, G};
use reference::job::job;
use reference::order::default_order;
use reference::plain_job;

/// One job by both; the marks start from a byte that is no mark.
fn same(grid: &[u8], technique: u32, order: &[i16], ceiling: u32, marks: usize) {
    let (mut ours, mut theirs) = (vec![77; marks], vec![77; marks]);
    let reference =
        job(grid, technique, order, ceiling, &mut ours).map(|job| (job.outcome as u8, job.count));
    let plain = plain_job::job(grid, technique, order, ceiling, &mut theirs);
    assert_eq!(plain, reference);
    assert_eq!(theirs, ours);
}

#[test]
fn same_jobs() {
    let mut random = Random(15);
    let mut grids: Vec<Grid> = named();
    for round in 0..30 {
        let full = random.full();
        grids.push(random.blanked(full, 40 + round));
        grids.push(random.with_none(40 + round));
    }
    for grid in grids {
        for technique in 1..=4 {
            for order in [default_order(), random.order()] {
                for ceiling in [0, 1, 200, u32::MAX] {
                    same(&grid, technique, &order, ceiling, 729);
                }
            }
        }
    }
}

#[test]
fn same_refusals() {
    let order = default_order();
    for marks in [0, 728, 730] {
        same(&G[..80], 0, &order, 0, marks);
    }
    for length in [0, 80] {
        same(&G[..length], 0, &order, 0, 729);
    }
    for technique in [0, 5, 257, u32::MAX] {
        same(G, technique, &order[1..], 0, 729);
    }
    for length in [0, 1_457] {
        same(G, 1, &order[..length], 0, 729);
    }
    for place in [0, 1, 700, 1_456, 1_457] {
        let mut grid = *G;
        grid[place % 81] = b'x';
        same(&grid, 5, &order, 0, 729);
        for entry in [0, 730, -730, i16::MIN, i16::MAX, 1, -1, 365, 729, -729] {
            // A second repeat, before the entry or after it.
            for repeated in [2, 900] {
                let mut broken = order.clone();
                broken[repeated] = broken[repeated - 1];
                broken[place] = entry;
                same(G, 1, &broken, 0, 729);
            }
        }
    }
}
