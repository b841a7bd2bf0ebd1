//! Each call with every refusal that it can give, in the order of its tests, and then answered. A call
//! is lent every fault at once; the one that it tells is mended before it is called again.

use grader::{Cause, Completions, Finished, Graded, JobFile, Outcome, Refusal, Technique, Verdict};

/// The full grid G.
const G: &[u8; 81] =
    b"123456789456789123789123456231564897564897231897231564312645978645978312978312645";

/// What a lent buffer holds before a call writes it.
const FILL: u8 = 77;

/// What the calls are lent. A call takes of it what it needs.
#[derive(Clone, Debug, PartialEq)]
struct Lent {
    grid: Vec<u8>,
    technique: u32,
    order: Vec<i16>,
    marks: Vec<u8>,
    answers: Vec<u32>,
    first: Vec<u8>,
    second: Vec<u8>,
    set: u32,
    number: u32,
    literals: Vec<i16>,
    order_buffer: Vec<i16>,
    /// Whether the job file has a piece with the technique.
    technique_there: bool,
    /// The kind of the order's piece.
    order_kind: u16,
    /// How many bytes more the order's piece states than it has.
    cut: usize,
}

impl Lent {
    /// Some grids with all faults: the last one has a bad byte at 17, the order a bad entry at 900 and a
    /// repeat at 5. Without its faults the order is not the default one.
    fn faulty(grids: usize) -> Lent {
        let mut grid = G.repeat(grids);
        grid[81 * (grids - 1) + 17] = b'x';
        grid.push(b'1');
        let mut order = grader::default_order().to_vec();
        order.swap(0, 1);
        order[900] = 730;
        order[5] = order[4];
        order.pop();
        Lent {
            grid,
            technique: 5,
            order,
            marks: vec![FILL; 729 * grids - 1],
            answers: vec![FILL.into(); 2 * grids - 1],
            first: vec![FILL; 80],
            second: vec![FILL; 82],
            set: 3,
            number: 11_988,
            literals: vec![FILL.into(); 8],
            order_buffer: vec![FILL.into(); 1457],
            technique_there: false,
            order_kind: 9,
            cut: 1,
        }
    }

    /// Mends what a refusal names.
    fn mend(&mut self, cause: Cause) {
        match cause {
            Cause::GridLength | Cause::BatchLength => self.grid.truncate(self.grid.len() - 1),
            Cause::GridByte => {
                let place = self.grid.iter().position(|&byte| byte == b'x');
                self.grid[place.expect("the bad byte")] = b'.';
            }
            Cause::Technique => self.technique = 1,
            Cause::OrderLength | Cause::PieceLength => self.order.push(-729),
            Cause::OrderEntry => self.order[900] = 451,
            Cause::OrderRepeat => self.order[5] = -3,
            Cause::PieceCut => self.cut = 0,
            Cause::PieceKind => self.order_kind = 4,
            Cause::PieceMissing => self.technique_there = true,
            Cause::MarksLength => self.marks.push(FILL),
            Cause::BufferLength => {
                self.first.resize(81, FILL);
                self.second.resize(81, FILL);
            }
            Cause::ClauseSet => self.set = 2,
            Cause::ClauseNumber => self.number = 11_987,
            Cause::LiteralsLength => self.literals.push(FILL.into()),
            Cause::OrderBuffer => self.order_buffer.push(FILL.into()),
            Cause::AnswersLength => self.answers.push(FILL.into()),
        }
    }

    /// A job file with the grid, the technique where it is there, and the order.
    fn file(&self) -> Vec<u8> {
        let order: Vec<u8> = self.order.iter().flat_map(|l| l.to_le_bytes()).collect();
        let technique = if self.technique_there {
            piece(1, 2, &[self.technique as u8])
        } else {
            Vec::new()
        };
        [
            piece(81, 1, &self.grid[..81]),
            technique,
            piece(order.len() + self.cut, self.order_kind, &order),
        ]
        .concat()
    }
}

/// A piece of a job file, with the body length that it states.
fn piece(length: usize, kind: u16, body: &[u8]) -> Vec<u8> {
    let length = (length as u16).to_le_bytes();
    [&length, &kind.to_le_bytes(), body].concat()
}

/// Makes a call until it is answered. It must be refused by the causes in turn, at their places, with
/// nothing changed. Gives the answer and what was lent.
fn refused_then_answered<A: std::fmt::Debug + PartialEq>(
    grids: usize,
    causes: &[(Cause, usize)],
    call: impl Fn(&mut Lent) -> Result<A, Refusal>,
) -> (A, Lent) {
    let mut lent = Lent::faulty(grids);
    for &(cause, place) in causes {
        let before = lent.clone();
        assert_eq!(call(&mut lent), Err(Refusal { cause, place }));
        assert_eq!(lent, before, "changed by {cause:?}");
        lent.mend(cause);
    }
    let answer = call(&mut lent).expect("all is mended");
    (answer, lent)
}

#[test]
fn check_grid() {
    let causes = [(Cause::GridLength, 0), (Cause::GridByte, 17)];
    refused_then_answered(1, &causes, |lent| grader::check_grid(&lent.grid));
}

#[test]
fn is_completion() {
    let causes = [(Cause::GridLength, 0), (Cause::GridByte, 17)];
    let (answer, lent) =
        refused_then_answered(1, &causes, |lent| grader::is_completion(&lent.grid, G));
    assert!(answer);
    for candidate in [&lent.grid[..], &G[..80]] {
        assert_eq!(grader::is_completion(&lent.grid, candidate), Ok(false));
    }
}

#[test]
fn clause() {
    let causes = [
        (Cause::ClauseSet, 0),
        (Cause::ClauseNumber, 0),
        (Cause::LiteralsLength, 0),
    ];
    let (length, lent) = refused_then_answered(1, &causes, |lent| {
        grader::clause(lent.set, lent.number, &mut lent.literals)
    });
    // 9 somewhere in the last box.
    assert_eq!(length, 9);
    assert_eq!(lent.literals, [549, 558, 567, 630, 639, 648, 711, 720, 729]);
    let pair = &mut [0; 9];
    assert_eq!(grader::clause(1, 8_828, pair), Ok(2));
    let past = Refusal {
        cause: Cause::ClauseNumber,
        place: 0,
    };
    assert_eq!(grader::clause(1, 8_829, pair), Err(past));
}

#[test]
fn job() {
    let causes = [
        (Cause::MarksLength, 0),
        (Cause::GridLength, 0),
        (Cause::GridByte, 17),
        (Cause::Technique, 0),
        (Cause::OrderLength, 0),
        (Cause::OrderEntry, 900),
        (Cause::OrderRepeat, 5),
    ];
    let (finished, lent) = refused_then_answered(1, &causes, |lent| {
        let Lent {
            grid,
            technique,
            order,
            marks,
            ..
        } = lent;
        grader::job(grid, *technique, order, 0, marks)
    });
    let solved = Finished {
        outcome: Outcome::Solved,
        trials: 0,
    };
    assert_eq!(finished, solved);
    assert_eq!(lent.marks, marks_of(G));
}

/// The marks of a full grid.
fn marks_of(grid: &[u8]) -> Vec<u8> {
    let marks = |digit: &u8| {
        (b'1'..=b'9')
            .map(|z| if z == *digit { 1 } else { 2 })
            .collect()
    };
    grid.iter().flat_map::<Vec<u8>, _>(marks).collect()
}

#[test]
fn search() {
    let causes = [
        (Cause::BufferLength, 0),
        (Cause::GridLength, 0),
        (Cause::GridByte, 17),
    ];
    let (completions, lent) = refused_then_answered(1, &causes, |lent| {
        grader::search(&lent.grid, &mut lent.first, &mut lent.second)
    });
    assert_eq!(completions, Completions::One);
    assert_eq!((&lent.first[..], &lent.second[..]), (&G[..], &[0; 81][..]));
}

#[test]
fn grade() {
    let causes = [
        (Cause::BufferLength, 0),
        (Cause::GridLength, 0),
        (Cause::GridByte, 17),
        (Cause::OrderLength, 0),
        (Cause::OrderEntry, 900),
        (Cause::OrderRepeat, 5),
    ];
    let (graded, lent) = refused_then_answered(1, &causes, |lent| {
        grader::grade(&lent.grid, &lent.order, 0, &mut lent.first)
    });
    let easiest = Graded {
        verdict: Verdict::UnitMinimal,
        trials: 0,
    };
    assert_eq!(graded, easiest);
    assert_eq!(lent.first, G);
}

#[test]
fn batch() {
    let causes = [
        (Cause::BatchLength, 0),
        (Cause::MarksLength, 0),
        (Cause::AnswersLength, 0),
        (Cause::GridByte, 81 + 17),
        (Cause::Technique, 0),
        (Cause::OrderLength, 0),
        (Cause::OrderEntry, 900),
        (Cause::OrderRepeat, 5),
    ];
    let ((), lent) = refused_then_answered(2, &causes, |lent| {
        let Lent {
            grid,
            technique,
            order,
            marks,
            answers,
            ..
        } = lent;
        grader::batch(grid, *technique, order, 0, marks, answers)
    });
    assert_eq!(lent.answers, [1, 0, 1, 0]);
    assert_eq!(lent.marks, marks_of(G).repeat(2));
}

#[test]
fn read_job_file() {
    let causes = [
        (Cause::BufferLength, 0),
        (Cause::OrderBuffer, 0),
        (Cause::PieceCut, 85),
        (Cause::PieceKind, 85),
        (Cause::PieceLength, 85),
        (Cause::PieceMissing, 0),
        (Cause::GridByte, 17),
        (Cause::Technique, 0),
        (Cause::OrderEntry, 900),
        (Cause::OrderRepeat, 5),
    ];
    let (read, lent) = refused_then_answered(1, &causes, |lent| {
        grader::read_job_file(&lent.file(), &mut lent.first, &mut lent.order_buffer)
    });
    let said = JobFile {
        technique: Technique::UnitMinimal,
        ceiling: grader::CEILING,
    };
    assert_eq!(read, said);
    assert_eq!(
        (lent.first, lent.order_buffer),
        (lent.grid[..81].to_vec(), lent.order)
    );
}

#[test]
fn listing() {
    let mut out = [FILL; grader::LINE];
    assert_eq!(grader::header(&mut out), b"line verdict trials\n");
    assert_eq!(out[20..], [FILL; 44]);
    assert_eq!(grader::list_line(1, G, &mut out), b"1 1 0\n");
    // The rest of the header stays.
    assert_eq!(&out[..20], b"1 1 0\nerdict trials\n");
    assert_eq!(out[20..], [FILL; 44]);
    assert_eq!(
        grader::list_line(u64::MAX, b"12", &mut out),
        b"18446744073709551615 R 11\n"
    );
    let bad = [b'x'; 81];
    assert_eq!(grader::list_line(2, &bad, &mut out), b"2 R 12\n");
}
