//! Batches: the answer, every mark and every number of 1 to 64 grids, under all techniques, orders of
//! four kinds, and ceilings around the sums at which each job of the batch ends. Refused batches:
//! every refusal at its boundaries, alone and with all others.

use crate::lent::{
    any_order, lengths_around, no_marks, order_faults, technique_faults, Fault, Lent, Twice,
    MEANINGLESS,
};
use crate::Tally;
use reference::batch::{batch, MOST_GRIDS};
use reference::cases::{named, Grid, Random};
use reference::grid::{CELLS, VARIABLES};
use reference::order::default_order;
use reference::{plain_job, proved};

/// Batches of few grids, and of as many as can be.
const SMALL: usize = 900;
const LARGEST: usize = 8;

/// Jobs of more trials than this are few, since the reference takes long for them.
const MANY_TRIALS: u32 = 250;

/// Jobs of a batch around whose ends there are ceilings.
const ENDS: usize = 4;

pub fn batches(grids: &[Grid]) -> Tally {
    let mut tally = Tally::default();
    let mut random = Random(8);
    let all = [grids, &named()[..]].concat();
    let short: Vec<Grid> = all.iter().copied().filter(has_few_trials).collect();
    for length in [1, 3, MOST_GRIDS] {
        let kinds = faults(length);
        let lent = |random: &mut Random| {
            let ceiling = random.below(20) as u32;
            lent(random, [&all, &short], length, ceiling)
        };
        tally.refused(&mut random, &kinds, lent, |tally, lent| {
            tally.batch(lent);
        });
    }
    for length in [0, MOST_GRIDS + 1, 2 * MOST_GRIDS] {
        tally.batch(&lent(&mut random, [&all, &short], length, 0));
    }
    for number in 0..SMALL + LARGEST {
        let length = match (number, random.below(16)) {
            (SMALL.., _) => MOST_GRIDS,
            (_, 0..=11) => 1 + random.below(4),
            (_, 12..=14) => 5 + random.below(6),
            _ => 11 + random.below(20),
        };
        let mut lent = lent(&mut random, [&all, &short], length, u32::MAX);
        let counts = tally.batch(&lent);
        for ceiling in ceilings(&mut random, &counts) {
            lent.ceiling = ceiling;
            tally.batch(&lent);
        }
    }
    tally
}

/// Whether the jobs of a grid under techniques 3 and 4 have few trials.
fn has_few_trials(grid: &Grid) -> bool {
    let order = default_order();
    let marks = &mut [0; VARIABLES];
    [3, 4].iter().all(|&technique| {
        let job = plain_job::job(grid, technique, &order, u32::MAX, marks);
        job.is_ok_and(|(_, count)| count <= MANY_TRIALS)
    })
}

/// A batch of some grids, the most of them from those with few trials. Techniques that try are
/// twice as frequent.
fn lent(random: &mut Random, from: [&[Grid]; 2], length: usize, ceiling: u32) -> Lent<2> {
    let mut grid = Vec::new();
    for _ in 0..length {
        let from = from[random.below(16).min(1)];
        grid.extend(from[random.below(from.len())]);
    }
    Lent {
        grid,
        technique: [1, 2, 3, 3, 4, 4][random.below(6)],
        order: any_order(random),
        ceiling,
        buffers: [length * VARIABLES, 2 * length],
    }
}

/// Ceilings below the sum of some counts, and around what the jobs have counted at the ends of some.
fn ceilings(random: &mut Random, counts: &[u32]) -> Vec<u32> {
    let mut sum = 0;
    let mut sums: Vec<u32> = counts
        .iter()
        .map(|count| {
            sum += count;
            sum
        })
        .collect();
    random.shuffle(&mut sums);
    let within = random.below(sum as usize + 1) as u32;
    let mut ceilings = vec![0, 1, within];
    for end in &sums[..sums.len().min(ENDS)] {
        ceilings.extend([end.saturating_sub(1), *end, end + 1]);
    }
    ceilings.sort_unstable();
    ceilings.dedup();
    ceilings
}

impl Tally {
    /// One batch, with the reference's counts. Answers: 0 for a batch that ran and the outcomes of its
    /// jobs, or the refusal.
    fn batch(&mut self, lent: &Lent<2>) -> Vec<u32> {
        let Lent {
            grid,
            technique,
            order,
            ceiling,
            buffers: [marks, answers],
        } = lent;
        let mut marks = Twice::new(*marks, no_marks());
        let mut answers = Twice::new(*answers, 1 << 31..);
        let (our_marks, our_answers) = (marks.ours(), answers.ours());
        let reference = batch(grid, *technique, order, *ceiling, our_marks, our_answers);
        let (their_marks, their_answers) = (marks.theirs(), answers.theirs());
        let proved = proved::batch(
            grid,
            *technique,
            order,
            *ceiling,
            their_marks,
            their_answers,
        );
        let mut counts = Vec::new();
        match reference {
            Ok(()) => {
                self.answered(0);
                for job in answers.ours().chunks(2) {
                    self.answered(job[0] as u8);
                    counts.push(job[1]);
                }
            }
            Err(refusal) => {
                self.answered(refusal.number);
                marks.refused();
                answers.refused();
            }
        }
        let [our_mark, their_mark] = marks.first_differing();
        let [our_answer, their_answer] = answers.first_differing();
        self.case(
            (proved, their_mark, their_answer),
            (reference, our_mark, our_answer),
            || format!("batch, {lent}"),
        );
        counts
    }
}

/// The faults of a batch of some grids: those behind 24, 23, 22, 21, 12, 47, 41 and 48, and batches
/// of other lengths.
fn faults(length: usize) -> Vec<Vec<Fault>> {
    let mut kinds = order_faults().to_vec();
    kinds.push(technique_faults());
    let bytes = (0..length * CELLS).zip(MEANINGLESS.into_iter().cycle());
    kinds.push(
        bytes
            .map(|(place, byte)| Fault::Byte(place, byte))
            .collect(),
    );
    let around = |part: usize| {
        let mut lengths = lengths_around(length * part).to_vec();
        lengths.extend([(length - 1) * part, (length + 1) * part]);
        lengths.extend(lengths_around(part));
        lengths.extend(lengths_around(MOST_GRIDS * part));
        lengths.extend([MOST_GRIDS * part, (MOST_GRIDS + 1) * part, length]);
        lengths.retain(|&wrong| wrong != length * part);
        lengths.sort_unstable();
        lengths.dedup();
        lengths
    };
    kinds.push(around(CELLS).into_iter().map(Fault::Cells).collect());
    for (number, part) in [VARIABLES, 2].into_iter().enumerate() {
        let lengths = around(part).into_iter();
        kinds.push(lengths.map(|wrong| Fault::Buffer(number, wrong)).collect());
    }
    kinds
}
