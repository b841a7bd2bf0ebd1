//! The proved grader of number-place grids: every call of the library that `./install` puts in place,
//! with a type for each answer and refusal.
//!
//! ```
//! use grader::{default_order, grade, Verdict, CEILING, GRID};
//!
//! let grid = b"100007090030020008009600500005300900010080002600004000300000010040000007007000300";
//! let mut completion = [0; GRID];
//! let graded = grade(grid, &default_order(), CEILING, &mut completion)?;
//! assert_eq!(graded.verdict, Verdict::NotSolved);
//! assert_eq!(graded.trials, 2072);
//! assert!(completion.starts_with(b"162857493"));
//! # Ok::<(), grader::Refusal>(())
//! ```
//!
//! A grid is 81 bytes, row by row: digits, and `0` or `.` for a blank. Variable 81(x−1) + 9(y−1) + z
//! stands for digit z in row x and column y, each from 1 to 9; a literal is a variable with a sign.
//!
//! Every call answers whatever it is lent, and returns. A refused call changes no buffer. Refusals are
//! tested in the order in which a call lists them, and the first is told. An answer of no meaning
//! panics: the library gives none, but a list that [`Finished::of_batch`] is lent may hold some. A
//! call takes less than 256 kB of stack.

#![deny(missing_docs, unsafe_code)]

mod numbers;
#[allow(unsafe_code)]
pub mod raw;

pub use numbers::{Cause, Completions, Outcome, Technique, Verdict};

use std::error::Error;
use std::fmt::{self, Display, Formatter};

/// The bytes of a grid or a completion.
pub const GRID: usize = 81;

/// The marks of a job, one a variable: 0 undecided, 1 true, 2 false.
pub const MARKS: usize = 729;

/// The literals of an order.
pub const ORDER: usize = 1458;

/// The literals lent for a clause.
pub const LITERALS: usize = 9;

/// The most grids of a batch.
pub const BATCH: usize = 64;

/// The bytes lent for a line of a listing.
pub const LINE: usize = 64;

/// The ceiling where none is named; no job counts more trials.
pub const CEILING: u32 = 1_062_882;

/// Why a call was refused, and where.
#[derive(Clone, Copy, Debug, PartialEq, Eq, Hash)]
pub struct Refusal {
    /// The cause, by its number.
    pub cause: Cause,
    /// The place of the cause, from 0: of the byte in the grid or in the whole batch (12), of the
    /// entry in the order (23, 24), in the job file where the piece begins (31, 32, 33); 0 for the
    /// others.
    pub place: usize,
}

impl Display for Refusal {
    fn fmt(&self, f: &mut Formatter) -> fmt::Result {
        let Refusal { cause, place } = self;
        write!(f, "refusal {} at place {place}: {cause}", cause.number())
    }
}

impl Error for Refusal {}

/// What a job gives back beside its marks.
#[derive(Clone, Copy, Debug, PartialEq, Eq, Hash)]
pub struct Finished {
    /// How it ended.
    pub outcome: Outcome,
    /// The trials made.
    pub trials: u32,
}

impl Finished {
    /// What each job of a batch gave back, in turn, out of the batch's answers.
    ///
    /// # Panics
    ///
    /// Where no batch filled the answers, the iterator panics at an outcome that is not 1 to 4.
    pub fn of_batch(answers: &[u32]) -> impl Iterator<Item = Finished> + '_ {
        answers.chunks_exact(2).map(|answer| Finished {
            outcome: Outcome::numbered(answer[0]),
            trials: answer[1],
        })
    }
}

/// What a grading gives back beside the completion.
#[derive(Clone, Copy, Debug, PartialEq, Eq, Hash)]
pub struct Graded {
    /// What it says of the grid.
    pub verdict: Verdict,
    /// The trials that all techniques made.
    pub trials: u32,
}

/// What a job file says beside its grid and its order.
#[derive(Clone, Copy, Debug, PartialEq, Eq, Hash)]
pub struct JobFile {
    /// The technique.
    pub technique: Technique,
    /// The ceiling.
    pub ceiling: u32,
}

/// The result and the count in an answer.
fn unpacked(answer: u64) -> Result<(u32, u32), Refusal> {
    let (number, result) = ((answer >> 56) as u32, (answer >> 48) as u32 & 0xff);
    let low = answer & 0xffff_ffff_ffff;
    if number != 0 {
        return Err(Refusal {
            cause: Cause::numbered(number),
            place: low as usize,
        });
    }
    Ok((result, u32::try_from(low).expect("a count has 32 bits")))
}

/// The answer of a call with no result.
fn accepted(answer: u64) -> Result<(), Refusal> {
    match unpacked(answer)? {
        (0, 0) => Ok(()),
        other => panic!("{other:?} is no answer"),
    }
}

/// The order where none is named: +1, −1, +2, −2 to −729.
pub fn default_order() -> [i16; ORDER] {
    std::array::from_fn(|place| {
        let variable = place as i16 / 2 + 1;
        [variable, -variable][place % 2]
    })
}

/// Accepts a grid of 81 bytes, each `1` to `9`, `0` or `.`. Refusals: 11, 12.
///
/// ```
/// use grader::{check_grid, Cause, Refusal};
///
/// let mut grid = [b'.'; 81];
/// assert_eq!(check_grid(&grid), Ok(()));
/// grid[40] = b'x';
/// assert_eq!(check_grid(&grid), Err(Refusal { cause: Cause::GridByte, place: 40 }));
/// ```
pub fn check_grid(grid: &[u8]) -> Result<(), Refusal> {
    accepted(raw::check_grid(grid))
}

/// Whether the candidate is a legal completion of the grid: 81 digits that keep all givens and have
/// each digit once in each row, column and box. Refusals: 11, 12, both of the grid.
///
/// ```
/// let full = b"123456789456789123789123456231564897564897231897231564312645978645978312978312645";
/// assert_eq!(grader::is_completion(&[b'.'; 81], full), Ok(true));
/// assert_eq!(grader::is_completion(&[b'1'; 81], full), Ok(false));
/// ```
pub fn is_completion(grid: &[u8], candidate: &[u8]) -> Result<bool, Refusal> {
    match unpacked(raw::is_completion(grid, candidate))? {
        (0, 0) => Ok(false),
        (1, 0) => Ok(true),
        other => panic!("{other:?} is no answer"),
    }
}

/// The length, 2 or 9, of a clause of set 1 (minimal, numbers 0 to 8,828) or 2 (extended, 0 to
/// 11,987). The nine lent literals become the clause's in index order, then zeros. Refusals: 43, 44,
/// 45.
///
/// ```
/// let mut literals = [0; grader::LITERALS];
/// assert_eq!(grader::clause(1, 81, &mut literals), Ok(2));
/// assert_eq!(literals, [-1, -82, 0, 0, 0, 0, 0, 0, 0]);
/// ```
pub fn clause(set: u32, number: u32, literals: &mut [i16]) -> Result<usize, Refusal> {
    unpacked(raw::clause(set, number, literals)).map(|(length, _)| length as usize)
}

/// A job: what one technique makes of a grid. It tries literals in the given order, and stops before a
/// trial where the count of trials has come to the ceiling. The 729 lent marks become what was
/// decided, all 0 after a contradiction. Refusals: 41, 11, 12, 21, 22, 23, 24.
///
/// ```
/// use grader::{default_order, job, Outcome, Technique, CEILING, MARKS};
///
/// let mut grid = [b'.'; 81];
/// grid[0] = b'1';
/// let mut marks = [0; MARKS];
/// let finished = job(&grid, Technique::UnitExtended, &default_order(), CEILING, &mut marks)?;
/// assert_eq!((finished.outcome, finished.trials), (Outcome::Open, 0));
/// assert_eq!(marks.iter().filter(|&&mark| mark != 0).count(), 29);
/// # Ok::<(), grader::Refusal>(())
/// ```
pub fn job(
    grid: &[u8],
    technique: impl Into<u32>,
    order: &[i16],
    ceiling: u32,
    marks: &mut [u8],
) -> Result<Finished, Refusal> {
    let (outcome, trials) = unpacked(raw::job(grid, technique.into(), order, ceiling, marks))?;
    Ok(Finished {
        outcome: Outcome::numbered(outcome),
        trials,
    })
}

/// The search for legal completions. The two lent buffers of 81 bytes become the smallest one or two
/// in byte order, as digits; one that is not used becomes zero bytes. Refusals: 42, 11, 12.
///
/// ```
/// use grader::{search, Completions, GRID};
///
/// let (mut first, mut second) = ([0; GRID], [0; GRID]);
/// assert_eq!(search(&[b'.'; 81], &mut first, &mut second), Ok(Completions::Several));
/// assert!(first.starts_with(b"123456789"));
/// assert!(first < second);
/// ```
pub fn search(grid: &[u8], first: &mut [u8], second: &mut [u8]) -> Result<Completions, Refusal> {
    let (completions, _) = unpacked(raw::search(grid, first, second))?;
    Ok(Completions::numbered(completions))
}

/// The grading of a grid. Each technique gets what the earlier ones left of the ceiling. The lent
/// buffer of 81 bytes becomes the completion where there is just one, else zero bytes. Refusals: 42,
/// 11, 12, 22, 23, 24.
///
/// ```
/// use grader::{default_order, grade, Verdict, CEILING, GRID};
///
/// let mut completion = [b'-'; GRID];
/// let graded = grade(&[b'.'; 81], &default_order(), CEILING, &mut completion)?;
/// assert_eq!(graded.verdict, Verdict::SeveralCompletions);
/// assert_eq!(graded.verdict.to_string(), "several legal completions");
/// assert_eq!(completion, [0; GRID]);
/// # Ok::<(), grader::Refusal>(())
/// ```
pub fn grade(
    grid: &[u8],
    order: &[i16],
    ceiling: u32,
    completion: &mut [u8],
) -> Result<Graded, Refusal> {
    let (verdict, trials) = unpacked(raw::grade(grid, order, ceiling, completion))?;
    Ok(Graded {
        verdict: Verdict::numbered(verdict),
        trials,
    })
}

/// A batch: a job for each of 1 to 64 grids that stand end to end, in turn, each with what the earlier
/// ones left of the ceiling. Each grid has its own 729 of the marks and its own two of the answers,
/// which [`Finished::of_batch`] reads. Refusals: 47, 41, 48, 12, 21, 22, 23, 24.
///
/// ```
/// use grader::{batch, default_order, Finished, Outcome, Technique, MARKS};
///
/// let (mut marks, mut answers) = ([0; 2 * MARKS], [0; 2 * 2]);
/// let technique = Technique::TrialsMinimal;
/// batch(&[b'.'; 2 * 81], technique, &default_order(), 2000, &mut marks, &mut answers)?;
/// let finished: Vec<Finished> = Finished::of_batch(&answers).collect();
/// assert_eq!((finished[0].outcome, finished[0].trials), (Outcome::Open, 1458));
/// assert_eq!((finished[1].outcome, finished[1].trials), (Outcome::Stopped, 542));
/// # Ok::<(), grader::Refusal>(())
/// ```
pub fn batch(
    grids: &[u8],
    technique: impl Into<u32>,
    order: &[i16],
    ceiling: u32,
    marks: &mut [u8],
    answers: &mut [u32],
) -> Result<(), Refusal> {
    let technique = technique.into();
    accepted(raw::batch(grids, technique, order, ceiling, marks, answers))
}

/// Reads a job file: pieces of body length (2 bytes), kind (2 bytes) and body, little-endian. Kinds
/// rise: 1 grid (81 bytes), 2 technique (1 byte), 3 ceiling (4), 4 order (2,916, two's complement); 1
/// and 2 must be there. The lent 81 bytes become the grid, the lent 1,458 literals the order, the
/// default one where the file has none. Refusals: 42, 46; 31, 32, 33 piece by piece; 34, 12 with its
/// place in the grid, 21, 23, 24.
///
/// ```
/// use grader::{default_order, read_job_file, Technique, CEILING, GRID, ORDER};
///
/// let file = [&[81, 0, 1, 0][..], &[b'.'; 81], &[1, 0, 2, 0], &[4]].concat();
/// let (mut grid, mut order) = ([0; GRID], [0; ORDER]);
/// let read = read_job_file(&file, &mut grid, &mut order)?;
/// assert_eq!((read.technique, read.ceiling), (Technique::TrialsExtended, CEILING));
/// assert_eq!(grid, [b'.'; 81]);
/// assert_eq!(order, default_order());
/// # Ok::<(), grader::Refusal>(())
/// ```
pub fn read_job_file(file: &[u8], grid: &mut [u8], order: &mut [i16]) -> Result<JobFile, Refusal> {
    let (technique, ceiling) = unpacked(raw::read_job_file(file, grid, order))?;
    Ok(JobFile {
        technique: Technique::numbered(technique),
        ceiling,
    })
}

/// The header of a listing: `line verdict trials` and a newline. It stands at the start of the lent
/// bytes; those past it stay.
///
/// ```
/// let mut out = [0; grader::LINE];
/// assert_eq!(grader::header(&mut out), b"line verdict trials\n");
/// ```
pub fn header(out: &mut [u8; LINE]) -> &[u8] {
    let length = raw::header(out);
    &out[..length]
}

/// The output line of a line of input, graded under the default order and ceiling: the number, the
/// verdict and the trials, or the number, `R` and the refusal, then a newline. It stands at the start
/// of the lent bytes; those past it stay.
///
/// ```
/// let mut out = [0; grader::LINE];
/// assert_eq!(grader::list_line(3, &[b'.'; 81], &mut out), b"3 7 0\n");
/// assert_eq!(grader::list_line(4, b"12", &mut out), b"4 R 11\n");
/// ```
pub fn list_line<'a>(number: u64, line: &[u8], out: &'a mut [u8; LINE]) -> &'a [u8] {
    let length = raw::list_line(number, line, out);
    &out[..length]
}
