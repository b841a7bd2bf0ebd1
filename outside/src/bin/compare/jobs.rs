//! Jobs: the outcome, the count and all marks on named, lent and generated grids, under all
//! techniques, orders of four kinds, and ceilings around the count of the job that no ceiling stops.
//! Refused jobs: every refusal at its boundaries, alone and with all others.

use crate::lent::{
    any_order, buffer_faults, grid_faults, order_faults, technique_faults, Call, Lent,
};
use crate::Tally;
use reference::cases::{named, Grid, Random, AI_ESCARGOT};
use reference::grid::VARIABLES;
use reference::{job, proved};

const JOB: Call<1> = Call {
    name: "job",
    reference: |lent, [marks]| {
        job::job(&lent.grid, lent.technique, &lent.order, lent.ceiling, marks)
            .map(|job| (job.outcome as u8, job.count))
    },
    proved: |lent, [marks]| {
        proved::job(&lent.grid, lent.technique, &lent.order, lent.ceiling, marks)
    },
};

pub fn jobs(grids: &[Grid]) -> Tally {
    let mut tally = Tally::default();
    let mut random = Random(4);
    let mut kinds = order_faults().to_vec();
    kinds.push(technique_faults());
    kinds.extend(grid_faults());
    kinds.push(buffer_faults(0, VARIABLES));
    let lent = |random: &mut Random| Lent {
        grid: AI_ESCARGOT.to_vec(),
        technique: 1 + random.below(4) as u32,
        order: any_order(random),
        ceiling: random.below(20) as u32,
        buffers: [VARIABLES],
    };
    tally.refused(&mut random, &kinds, lent, |tally, lent| {
        let _ = tally.call(&JOB, lent);
    });
    for grid in named() {
        for technique in 1..=4 {
            for order in random.orders() {
                under_ceilings(&mut tally, &mut random, &grid, technique, &order);
            }
        }
    }
    for grid in grids {
        for technique in 1..=4 {
            let order = any_order(&mut random);
            under_ceilings(&mut tally, &mut random, grid, technique, &order);
        }
    }
    tally
}

/// The job that no ceiling stops, then those with ceilings around its count and below.
fn under_ceilings(
    tally: &mut Tally,
    random: &mut Random,
    grid: &Grid,
    technique: u32,
    order: &[i16],
) {
    let mut lent = Lent {
        grid: grid.to_vec(),
        technique,
        order: order.to_vec(),
        ceiling: u32::MAX,
        buffers: [VARIABLES],
    };
    let count = tally.call(&JOB, &lent).map_or(0, |(_, count)| count);
    let within = random.below(count as usize + 1) as u32;
    let mut ceilings = [0, 1, within, count.saturating_sub(1), count, count + 1].to_vec();
    ceilings.sort_unstable();
    ceilings.dedup();
    for ceiling in ceilings {
        lent.ceiling = ceiling;
        let _ = tally.call(&JOB, &lent);
    }
}
