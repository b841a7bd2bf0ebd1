//! Ceilings in jobs, gradings and batches: where they stop, and what is counted.

use reference::batch::batch;
use reference::cases::{Grid, Random, AI_ESCARGOT, G, VERDICT_FOUR};
use reference::grading::{grade, Grade};
use reference::job::{run, Job, Outcome, TECHNIQUES};
use reference::order::default_order;
use reference::search::smallest_two;

fn graded(grid: &Grid, ceiling: u32) -> (u8, u32) {
    let mut completion = [77; 81];
    let grade = grade(grid, &default_order(), ceiling, &mut completion);
    let Grade { verdict, trials } = grade.expect("the input is well formed");
    let only = match smallest_two(grid)[..] {
        [only] => only,
        _ => [0; 81],
    };
    assert_eq!(completion, only);
    (verdict, trials)
}

#[test]
fn ceiling_bounds_the_sum_of_both_stages() {
    for (ceiling, expected) in [
        (u32::MAX, (4, 2_574)),
        (2_574, (4, 2_574)),
        (2_573, (6, 2_573)),
        (2_500, (6, 2_500)),
        (2_452, (6, 2_452)),
        (2_451, (6, 2_451)),
        (0, (6, 0)),
    ] {
        assert_eq!(graded(VERDICT_FOUR, ceiling), expected, "ceiling {ceiling}");
    }
    // Both totals of the hardest grid are below this ceiling, their sum is above it.
    assert_eq!(graded(AI_ESCARGOT, 2_072), (5, 2_072));
    assert_eq!(graded(AI_ESCARGOT, 2_071), (6, 2_071));
    assert_eq!(graded(AI_ESCARGOT, 1_500), (6, 1_500));
}

#[test]
fn verdicts_without_trials_ignore_the_ceiling() {
    assert_eq!(graded(G, 0), (1, 0));
    assert_eq!(graded(&[b'.'; 81], 0), (7, 0));
    let mut wrong = *G;
    wrong[80] = b'6';
    assert_eq!(graded(&wrong, 0), (0, 0));
}

/// The verdict is the first technique that solves, on grids of every verdict from 1 to 5.
#[test]
fn verdicts_follow_the_jobs() {
    let mut random = Random(7);
    let mut grids: Vec<Grid> = (0..120)
        .map(|round| random.with_one(30 + round % 52))
        .collect();
    grids.extend([*VERDICT_FOUR, *AI_ESCARGOT]);
    let mut seen = [false; 6];
    for grid in grids {
        let order = random.order();
        let jobs = TECHNIQUES.map(|technique| run(&grid, technique, &order, u32::MAX).0);
        let solved = |job: &Job| job.outcome == Outcome::Solved;
        let first = jobs.iter().position(solved);
        let used = &jobs[..first.map_or(4, |place| place + 1)];
        let verdict = first.map_or(5, |place| place as u8 + 1);
        let trials = used.iter().map(|job| job.count).sum();
        let answer = grade(&grid, &order, u32::MAX, &mut [0; 81]);
        assert_eq!(answer, Ok(Grade { verdict, trials }));
        seen[usize::from(verdict)] = true;
    }
    assert_eq!(seen, [false, true, true, true, true, true]);
}

/// A lower ceiling stops a job after as many trials, on the way to what it does without. The cases
/// have jobs that trials solve, leave open and contradict.
#[test]
fn ceiling_cuts_a_job_short() {
    let mut random = Random(8);
    let mut cut_jobs = [0; 5];
    for round in 0..30 {
        let blanks = 62 - round / 3;
        for grid in [
            random.with_none(blanks),
            random.with_one(blanks),
            random.with_several(blanks),
        ] {
            let order = random.order();
            for technique in &TECHNIQUES[2..] {
                let (whole, marks) = run(&grid, *technique, &order, u32::MAX);
                assert_eq!(run(&grid, *technique, &order, whole.count), (whole, marks));
                if whole.count == 0 {
                    continue;
                }
                cut_jobs[whole.outcome as usize] += 1;
                for ceiling in [0, whole.count / 2, whole.count - 1] {
                    let (cut, cut_marks) = run(&grid, *technique, &order, ceiling);
                    let outcome = Outcome::Stopped;
                    assert_eq!(
                        cut,
                        Job {
                            outcome,
                            count: ceiling
                        }
                    );
                    let same = |v: usize| cut_marks[v] == 0 || cut_marks[v] == marks[v];
                    assert!(whole.outcome == Outcome::Contradiction || (0..729).all(same));
                }
            }
        }
    }
    let [_, solved, open, stopped, contradiction] = cut_jobs;
    assert!(
        solved >= 3 && open >= 3 && contradiction >= 3 && stopped == 0,
        "{cut_jobs:?}"
    );
}

/// Each grid of a batch has the job that it has alone under what is left of the ceiling.
#[test]
fn batch_shares_one_ceiling() {
    let mut random = Random(9);
    let order = random.order();
    for length in [1, 2, 7, 64] {
        let mut grids: Vec<u8> = vec![];
        for round in 0..length {
            let full = random.full();
            grids.extend(random.blanked(full, 30 + round % 50));
        }
        for number in 1..=4 {
            for ceiling in [0, 900, 5_000, u32::MAX] {
                let (mut marks, mut answers) = (vec![77; 729 * length], vec![77; 2 * length]);
                batch(&grids, number, &order, ceiling, &mut marks, &mut answers).unwrap();
                let mut left = ceiling;
                for place in 0..length {
                    let grid = &grids[81 * place..81 * place + 81];
                    let technique = TECHNIQUES[number as usize - 1];
                    let (job, expected) = run(grid, technique, &order, left);
                    assert_eq!(marks[729 * place..729 * place + 729], expected);
                    assert_eq!(
                        answers[2 * place..2 * place + 2],
                        [job.outcome as u32, job.count]
                    );
                    left -= job.count;
                }
            }
        }
    }
}

#[test]
fn batch_stops_grids_after_the_ceiling() {
    let grids = [*AI_ESCARGOT, *VERDICT_FOUR, *G, *AI_ESCARGOT].concat();
    let (mut marks, mut answers) = (vec![0; 4 * 729], vec![0; 8]);
    let (order, ceiling) = (default_order(), 1_220 + 1_000);
    batch(&grids, 3, &order, ceiling, &mut marks, &mut answers).unwrap();
    assert_eq!(answers, [2, 1_220, 3, 1_000, 1, 0, 3, 0]);
}
