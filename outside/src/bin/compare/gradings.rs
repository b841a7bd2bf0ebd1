//! Gradings: the verdict, the trial total and the completion on named, lent and generated grids, each
//! as it is and turned, and on more turned copies of hard ones; under orders of four kinds and
//! ceilings around the count of technique 3 and around the total. Refused gradings: every refusal at
//! its boundaries, alone and with all others.

use crate::lent::{any_order, buffer_faults, grid_faults, order_faults, Call, Lent};
use crate::Tally;
use reference::cases::{named, Grid, Random, AI_ESCARGOT, VERDICT_FOUR};
use reference::grid::CELLS;
use reference::job::{self, TECHNIQUES};
use reference::{grading, proved};

/// Turned copies of each grid that no technique, or only the last, solves.
const TURNED: usize = 6;

const GRADE: Call<1> = Call {
    name: "grading",
    reference: |lent, [completion]| {
        grading::grade(&lent.grid, &lent.order, lent.ceiling, completion)
            .map(|grade| (grade.verdict, grade.trials))
    },
    proved: |lent, [completion]| proved::grade(&lent.grid, &lent.order, lent.ceiling, completion),
};

pub fn gradings(grids: &[Grid]) -> Tally {
    let mut tally = Tally::default();
    let mut random = Random(7);
    let mut kinds = order_faults().to_vec();
    kinds.extend(grid_faults());
    kinds.push(buffer_faults(0, CELLS));
    let few_trials = |random: &mut Random| {
        let ceiling = random.below(20) as u32;
        lent(AI_ESCARGOT, any_order(random), ceiling)
    };
    tally.refused(&mut random, &kinds, few_trials, |tally, lent| {
        let _ = tally.call(&GRADE, lent);
    });
    for grid in [VERDICT_FOUR, AI_ESCARGOT] {
        for order in random.orders() {
            under_ceilings(&mut tally, &mut random, grid, order);
        }
        for _ in 0..TURNED {
            let (turned, order) = (random.turned(grid), any_order(&mut random));
            under_ceilings(&mut tally, &mut random, &turned, order);
        }
    }
    for grid in grids.iter().chain(&named()) {
        for grid in [*grid, random.turned(grid)] {
            let order = any_order(&mut random);
            under_ceilings(&mut tally, &mut random, &grid, order);
        }
    }
    tally
}

fn lent(grid: &Grid, order: Vec<i16>, ceiling: u32) -> Lent<1> {
    Lent {
        grid: grid.to_vec(),
        technique: 0,
        order,
        ceiling,
        buffers: [CELLS],
    }
}

/// The grading that no ceiling stops, then those with ceilings around what technique 3 counts alone,
/// around the total, and below.
fn under_ceilings(tally: &mut Tally, random: &mut Random, grid: &Grid, order: Vec<i16>) {
    let mut lent = lent(grid, order, u32::MAX);
    let (verdict, total) = tally.call(&GRADE, &lent).unwrap_or_default();
    let third = match verdict {
        4 | 5 => job::run(grid, TECHNIQUES[2], &lent.order, u32::MAX).0.count,
        _ => total,
    };
    let within = random.below(total as usize + 1) as u32;
    let mut ceilings = [0, 1, within, total + 1].to_vec();
    ceilings.extend([third, total].map(|count| count.saturating_sub(1)));
    ceilings.extend([third, third + 1, total]);
    ceilings.sort_unstable();
    ceilings.dedup();
    for ceiling in ceilings {
        lent.ceiling = ceiling;
        let _ = tally.call(&GRADE, &lent);
    }
}
