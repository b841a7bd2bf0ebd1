//! What answers mean, and what more givens and stronger rules may change, on generated grids: jobs
//! are their closures whatever the order, marks and verdicts only grow with givens and techniques,
//! and no count passes the bound.

use reference::cases::{Grid, Random, AI_ESCARGOT};
use reference::clauses::clause_set;
use reference::closure::{close, Marks, State};
use reference::grading::grade;
use reference::grid::{givens, is_given};
use reference::job::{run, Job, Outcome, HIGHEST_COUNT, TECHNIQUES};
use reference::search::smallest_two;

/// Grids of all kinds, many givens and few.
fn grids(random: &mut Random) -> Vec<Grid> {
    let mut grids = vec![[b'.'; 81], *AI_ESCARGOT];
    for round in 0..12 {
        grids.push(random.with_none(81 - 3 * round));
        grids.push(random.with_one(81 - round));
        grids.push(random.with_several(48 + round));
        let full = random.full();
        grids.push(random.blanked(full, 66 + round));
    }
    grids
}

#[test]
fn counts_stay_below_the_bound() {
    assert_eq!(HIGHEST_COUNT, 1_062_882);
    let mut random = Random(10);
    for grid in grids(&mut random) {
        for technique in TECHNIQUES {
            let order = random.order();
            let (job, _) = run(&grid, technique, &order, u32::MAX);
            assert!(job.count <= HIGHEST_COUNT);
            assert!(technique.trials || job.count == 0);
            assert_ne!(job.outcome, Outcome::Stopped);
            // The highest count is a ceiling that stops no job.
            assert_eq!(run(&grid, technique, &order, HIGHEST_COUNT).0, job);
        }
    }
}

/// An unstopped job ends in a state that is closed under its rules, the same for every order.
#[test]
fn unstopped_jobs_are_closures() {
    let mut random = Random(11);
    let mut contradictions = 0;
    for grid in grids(&mut random) {
        for technique in TECHNIQUES {
            let (job, marks) = run(&grid, technique, &random.order(), u32::MAX);
            for _ in 0..3 {
                let (other, other_marks) = run(&grid, technique, &random.order(), u32::MAX);
                assert_eq!((other.outcome, other_marks), (job.outcome, marks));
            }
            if job.outcome == Outcome::Contradiction {
                contradictions += 1;
                assert!(smallest_two(&grid).is_empty());
                assert_eq!(marks, [0; 729]);
                continue;
            }
            let literals = literals(&marks);
            assert!(givens(&grid).iter().all(|given| literals.contains(given)));
            assert_eq!(job.outcome == Outcome::Solved, literals.len() == 729);
            if job.outcome == Outcome::Solved {
                let only = smallest_two(&grid)[0];
                assert!((0..81).all(|cell| marks[9 * cell + usize::from(only[cell] - b'1')] == 1));
            }
            let clauses = clause_set(technique.set).unwrap();
            let state = State::of(&literals);
            let mut again = state.clone();
            assert_eq!(close(clauses, &mut again), Ok(()));
            assert_eq!(again, state);
            for v in (1..=729).filter(|&v| technique.trials && !state.decides(v)) {
                for literal in [v, -v] {
                    let mut trial = state.clone();
                    trial.join(literal);
                    assert_eq!(close(clauses, &mut trial), Ok(()));
                }
            }
        }
    }
    assert!(contradictions >= 4);
}

fn literals(marks: &Marks) -> Vec<i16> {
    let decided = (1..).zip(marks).filter(|(_, &mark)| mark != 0);
    decided
        .map(|(v, &mark)| if mark == 1 { v } else { -v })
        .collect()
}

/// The grid with some more givens: those of a completion, or of another grid.
fn with_more(random: &mut Random, grid: &Grid) -> Grid {
    let source = match smallest_two(grid)[..] {
        [.., last] if random.below(4) > 0 => last,
        _ => random.full(),
    };
    let share = random.below(8);
    let mut more = *grid;
    for cell in 0..81 {
        if !is_given(more[cell]) && random.below(20) < share {
            more[cell] = source[cell];
        }
    }
    more
}

#[test]
fn jobs_grow_with_givens_and_techniques() {
    // Pairs of technique numbers, the second at least as strong; 2 and 3 are not compared.
    let pairs = [
        (1, 1),
        (1, 2),
        (1, 3),
        (1, 4),
        (2, 2),
        (2, 4),
        (3, 3),
        (3, 4),
        (4, 4),
    ];
    let mut random = Random(12);
    let mut compared = 0;
    for grid in grids(&mut random) {
        for (weaker, stronger) in pairs {
            let more = with_more(&mut random, &grid);
            let ceiling = [random.below(300) as u32, u32::MAX][random.below(2)];
            let (first, first_marks) = run(&grid, TECHNIQUES[weaker - 1], &random.order(), ceiling);
            let (second, second_marks) =
                run(&more, TECHNIQUES[stronger - 1], &random.order(), u32::MAX);
            if second.outcome == Outcome::Contradiction {
                continue;
            }
            assert_ne!(first.outcome, Outcome::Contradiction);
            assert!((0..729).all(|v| first_marks[v] == 0 || first_marks[v] == second_marks[v]));
            compared += 1;
        }
    }
    assert!(compared >= 100);
}

#[test]
fn verdicts_fall_with_givens() {
    let mut random = Random(13);
    let mut fallen = 0;
    for round in 0..150 {
        let grid = if round < 10 {
            *AI_ESCARGOT
        } else {
            random.with_one(81 - round % 30)
        };
        let more = with_more(&mut random, &grid);
        let (mut only, mut other) = ([0; 81], [0; 81]);
        let first = grade(&grid, &random.order(), u32::MAX, &mut only).unwrap();
        let second = grade(&more, &random.order(), u32::MAX, &mut other).unwrap();
        assert!((1..=5).contains(&first.verdict));
        if second.verdict != 0 {
            assert_eq!(only, other);
            assert!(second.verdict <= first.verdict);
            fallen += usize::from(second.verdict < first.verdict);
        }
    }
    assert!(fallen >= 20);
}

/// Grids that differ only in their signs for a blank are one grid.
#[test]
fn both_blank_signs_are_one() {
    let mut random = Random(14);
    for grid in grids(&mut random) {
        let [zeros, dots] =
            [b'0', b'.'].map(|sign| grid.map(|byte| if is_given(byte) { byte } else { sign }));
        assert_eq!(smallest_two(&zeros), smallest_two(&dots));
        for technique in TECHNIQUES {
            let order = random.order();
            let jobs: [(Job, Marks); 2] =
                [zeros, dots].map(|grid| run(&grid, technique, &order, 700));
            assert_eq!(jobs[0], jobs[1]);
        }
    }
}
