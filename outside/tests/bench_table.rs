//! The bench table row by row, the published grids, and the example of `gradelist`.

use reference::cases::{with_givens, Grid, AI_ESCARGOT, FIGURE_FIVE, G};
use reference::closure::Marks;
use reference::grading::{grade, Grade};
use reference::grid::is_completion;
use reference::job::{job, Job, Outcome};
use reference::listing::gradelist;
use reference::order::default_order;

/// A job under the default order; the marks start from a byte that is no mark.
fn run(grid: &[u8], technique: u32, ceiling: u32) -> (Outcome, u32, Marks) {
    let mut marks = [77; 729];
    let answer = job(grid, technique, &default_order(), ceiling, &mut marks);
    let Job { outcome, count } = answer.expect("the input is well formed");
    (outcome, count, marks)
}

fn decided(marks: &Marks) -> usize {
    marks.iter().filter(|&&mark| mark != 0).count()
}

#[test]
fn blank_grid_under_technique_3() {
    let blank = with_givens(&[]);
    for (ceiling, outcome, count) in [
        (0, Outcome::Stopped, 0),
        (1, Outcome::Stopped, 1),
        (1_457, Outcome::Stopped, 1_457),
        (1_458, Outcome::Open, 1_458),
        (u32::MAX, Outcome::Open, 1_458),
    ] {
        assert_eq!(run(&blank, 3, ceiling), (outcome, count, [0; 729]));
    }
}

#[test]
fn one_given() {
    let grid = with_givens(&[(1, 1, 1)]);
    let (outcome, count, marks) = run(&grid, 1, 0);
    assert_eq!((outcome, count, decided(&marks)), (Outcome::Open, 0, 21));
    // The given, and no other digit of its cell struck under set 1.
    assert_eq!(marks[..9], [1, 0, 0, 0, 0, 0, 0, 0, 0]);
    let (outcome, count, marks) = run(&grid, 2, 0);
    assert_eq!((outcome, count, decided(&marks)), (Outcome::Open, 0, 29));
    assert_eq!(marks[..9], [1, 2, 2, 2, 2, 2, 2, 2, 2]);
}

#[test]
fn hidden_single() {
    let grid = with_givens(&[(2, 4, 1), (3, 7, 1), (4, 2, 1), (7, 3, 1)]);
    assert_eq!(run(&grid, 2, 0).2[0], 1);
    assert_eq!(run(&grid, 1, 0).2[0], 0);
}

#[test]
fn contradictions_leave_all_marks_0() {
    let two_fives = with_givens(&[(1, 1, 5), (1, 2, 5)]);
    for technique in 1..=4 {
        assert_eq!(
            run(&two_fives, technique, u32::MAX),
            (Outcome::Contradiction, 0, [0; 729])
        );
    }
    let mut givens: Vec<_> = (1..=8).map(|z| (1, usize::from(z), z)).collect();
    givens.push((5, 9, 9));
    let no_digit_left = with_givens(&givens);
    assert_eq!(
        run(&no_digit_left, 1, 0),
        (Outcome::Contradiction, 0, [0; 729])
    );
}

#[test]
fn full_grid_is_solved_under_technique_1() {
    let (outcome, count, marks) = run(G, 1, 0);
    assert_eq!((outcome, count), (Outcome::Solved, 0));
    for (cell, nine) in marks.chunks(9).enumerate() {
        for (z, &mark) in (b'1'..).zip(nine) {
            assert_eq!(mark, if G[cell] == z { 1 } else { 2 });
        }
    }
}

fn graded(grid: &Grid) -> (Grade, Grid) {
    let mut completion = [0; 81];
    let grade = grade(grid, &default_order(), u32::MAX, &mut completion);
    (grade.expect("the input is well formed"), completion)
}

#[test]
fn ai_escargot_has_verdict_5() {
    let (grade, completion) = graded(AI_ESCARGOT);
    assert_eq!(
        grade,
        Grade {
            verdict: 5,
            trials: 1_220 + 852
        }
    );
    assert_eq!(is_completion(AI_ESCARGOT, &completion), Ok(true));
    // 42% and 29% of the variables stay undecided.
    for (technique, trials, undecided) in [(3, 1_220, 304), (4, 852, 212)] {
        let (outcome, count, marks) = run(AI_ESCARGOT, technique, u32::MAX);
        assert_eq!((outcome, count), (Outcome::Open, trials));
        assert_eq!(729 - decided(&marks), undecided);
    }
}

#[test]
fn figure_five_has_verdict_5_throughout() {
    for grid in FIGURE_FIVE {
        let (grade, completion) = graded(grid);
        assert_eq!(grade.verdict, 5);
        assert_eq!(is_completion(grid, &completion), Ok(true));
    }
}

#[test]
fn gradelist_example() {
    let mut one_blank = *G;
    one_blank[0] = b'.';
    let dots = [b'.'; 81];
    let two_fives = [&b"55"[..], &dots[..79]].concat();
    let lines = [&G[..], &one_blank[..], &dots[..], &two_fives[..], b"12"];
    let expected = "line verdict trials\n1 1 0\n2 1 0\n3 7 0\n4 0 0\n5 R 11\n";
    let mut input = lines.join(&b'\n');
    assert_eq!(gradelist(&input), expected);
    input.push(b'\n');
    assert_eq!(gradelist(&input), expected);
}
